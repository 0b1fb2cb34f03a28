# The plan of a build, in lines, as JSON and for Graphviz. Nothing is built, and the compiler is not asked.
file Cargo.toml '[workspace]' 'members = ["app", "util"]'
package app app '[dependencies]' 'util = { path = "../util" }'
file app/src/main.rs
package util util
file util/build.rs
file util/src/lib.rs
plan() {
    RUSTC=/w/no_compiler pb_tool plan "$@" 2> said
    status=$?
    cat said
    rm said
    echo "status $status"
}
plan
plan --json
plan --dot
plan -p util --release
ls
# A plan that is refused, and words that ask for nothing.
plan -p utl
plan --profile relase
plan --manifest-path none/Cargo.toml
plan --json --dot
pb_tool plan --dot 2> said > /dev/full
echo "status $?"
cat said
rm said
ls
