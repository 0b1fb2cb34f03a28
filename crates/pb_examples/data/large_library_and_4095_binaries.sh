# A library and 4,095 binaries, which are as many units as a plan may have, in memory. The first build starts each, and
# the second starts none. What is wanted is written here from the rules, line by line. One binary more is refused.
names() {
    number=0
    while [ $number -lt "$1" ]; do
        printf 'b%04d\n' $number
        number=$((number + 1))
    done
}
about='{"reason":"compiler-artifact","package_id":"path+file:///w#a@0.1.0","manifest_path":"/w/Cargo.toml","target":{"kind":'
rest='"edition":"2021"},"profile":{"opt_level":"0","debuginfo":2,"debug_assertions":true,"overflow_checks":true,"test":false},"features":[]'
session() {
    printf '%s' '[{"write":["/w/src/lib.rs",""]},{"write":["/w/b.rs","use a\n"]},{"write":["/w/Cargo.toml","[package]\nname = \"a\"\nversion = \"0.1.0\"\nedition = \"2021\"\n'
    for name in $(names "$1"); do
        printf '%s' "[[bin]]\\nname = \\\"$name\\\"\\npath = \\\"b.rs\\\"\\n"
    done
    printf '%s' '"]},{"build":{}},{"build":{}}]'
}
session 4095 > units.json
{
    for fresh in false true; do
        printf '%s["lib"],"crate_types":["lib"],"name":"a","src_path":"/w/src/lib.rs",%s,' "$about" "$rest"
        printf '"filenames":["/w/target/debug/a.target.lib/liba.rlib"],"executable":null,"fresh":%s}\n' $fresh
        for name in $(names 4095); do
            path="/w/target/debug/a.target.bin-$name/$name"
            printf '%s["bin"],"crate_types":["bin"],"name":"%s","src_path":"/w/b.rs",%s,' "$about" "$name" "$rest"
            printf '"filenames":["%s"],"executable":"%s","fresh":%s}\n' "$path" "$path" $fresh
        done
        echo '{"reason":"build-finished","success":true}'
    done
    echo "ok started=a.target.lib,$(names 4095 | sed 's/^/a.target.bin-/' | paste -s -d , -)"
    echo 'ok started=-'
} > wanted
pb_tool session units.json > came
echo "status $?"
cmp came wanted && echo "$(grep -c '"fresh":false' came) started, then $(grep -c '"fresh":true' came) fresh"
session 4096 > units.json
pb_tool session units.json
echo "status $?"
