# A chain of 256 packages, in memory: each needs the one before it. The first build starts each, in this order, and the
# second starts none. What is wanted is written here from the rules, line by line.
names() {
    number=0
    while [ $number -lt 256 ]; do
        printf 'm%03d\n' $number
        number=$((number + 1))
    done
}
line() {
    printf '{"reason":"compiler-artifact","package_id":"path+file:///w/%s#0.1.0","manifest_path":"/w/%s/Cargo.toml",' "$1" "$1"
    printf '"target":{"kind":["lib"],"crate_types":["lib"],"name":"%s","src_path":"/w/%s/src/lib.rs","edition":"2021"},' "$1" "$1"
    printf '"profile":{"opt_level":"0","debuginfo":2,"debug_assertions":true,"overflow_checks":true,"test":false},"features":[],'
    printf '"filenames":["/w/target/debug/%s.target.lib/lib%s.rlib"],"executable":null,"fresh":%s}\n' "$1" "$1" "$2"
}
{
    printf '%s' '[{"write":["/w/Cargo.toml","[workspace]\nmembers = [\"m*\"]\n"]}'
    needs=
    for name in $(names); do
        printf ',{"write":["/w/%s/Cargo.toml","%s\\n%s"]}' "$name" "[package]\\nname = \\\"$name\\\"\\nversion = \\\"0.1.0\\\"\\nedition = \\\"2021\\\"" "$needs"
        printf ',{"write":["/w/%s/src/lib.rs",""]}' "$name"
        needs="[dependencies]\\n$name = { path = \\\"../$name\\\" }\\n"
    done
    printf '%s' ',{"build":{}},{"build":{}}]'
} > chain.json
{
    for fresh in false true; do
        for name in $(names); do
            line "$name" $fresh
        done
        echo '{"reason":"build-finished","success":true}'
    done
    echo "ok started=$(names | sed 's/$/.target.lib/' | paste -s -d , -)"
    echo 'ok started=-'
} > wanted
pb_tool session chain.json > came
echo "status $?"
cmp came wanted && echo "$(grep -c '"fresh":false' came) started, then $(grep -c '"fresh":true' came) fresh"
