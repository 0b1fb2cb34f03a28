# What builds have made is removed: of a package under a profile, then all, and never anything else.
file Cargo.toml '[workspace]' 'members = ["app", "util"]'
package app app '[dependencies]' 'util = { path = "../util" }'
file app/src/lib.rs
package util util
file util/src/lib.rs
clean() {
    pb_tool clean "$@" 2> said
    status=$?
    cat said
    rm said
    echo "status $status"
}
clean
ls
pb_tool build > lines
pb_tool build --release > lines
# Nothing is there of what is named: each is refused, and nothing is changed.
ls -R target > before
clean --target-dir app
clean --profile relase
clean --profile ''
clean -p utl
clean -p app --profile other
clean --release --profile dev
clean --manifest-path app/Cargo.toml
clean --jobs 2 2>&1 | head -n 1
ls -R target | cmp - before && rm before
clean -p util --release
clean -p util -p utl --release
ls target target/debug target/release
# A file of someone else, with a folder of cargo's: they stay, and so does the target folder.
file target/debug/notes.txt
file target/debug/deps/a.target.lib
clean
ls -R target
clean
# Another target folder in this one stays, and an empty folder of someone else.
rm -r target
mkdir -p target/debug/deps
pb_tool build > lines
pb_tool build --target-dir target/ra > lines
clean
ls target target/debug target/ra/debug
clean --target-dir target/ra
ls target
rmdir target/debug/deps
# With nothing else in it, the target folder goes. A broken manifest is no hindrance.
pb_tool build > lines
file Cargo.toml '[workspace'
clean
ls
