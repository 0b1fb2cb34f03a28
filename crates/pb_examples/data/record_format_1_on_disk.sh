# Records as an earlier version wrote them, with copies of files in place of numbers. They count, and get numbers; and a
# unit is fresh as long as the files of what it needs are the same, whether these are made again or not.
file Cargo.toml '[workspace]' 'members = ["a", "b"]'
package a a
file a/src/lib.rs
package b b '[dependencies]' 'a = { path = "../a" }'
file b/src/lib.rs 'use a'
build > /dev/null
cd target/debug || exit
copy() {
    printf '%s\n' "${#1}" "$1" "$(wc -c < "a.target.lib/$1")"
    cat "a.target.lib/$1"
    echo
}
sed '1s/2/1/; 2d' a.target.lib.record > a
{
    sed '1s/2/1/; 2d; /^a.target.lib$/q' b.target.lib.record
    echo 2
    copy a.d
    copy liba.rlib
    printf '0\n\n0\n\nend\n'
} > b
mv a a.target.lib.record
mv b b.target.lib.record
cd ../..
head -qn 1 target/debug/*.record
file a/src/lib.rs '# c'
build
head -qn 2 target/debug/*.record
build
