# Why each child is started: where nothing is kept, where nothing has changed, after a source, after a file and a
# variable of a build script, after a feature, and for another profile.
package . a '[dependencies]' 'b = { path = "b" }' '[features]' 'more = []'
file src/lib.rs
file build.rs 'print cargo::rerun-if-changed=words' 'show GREETING' 'read words'
file words 'one'
package b b
file b/src/lib.rs
run() {
    build --explain --runner "$RUSTC --run" "$@" > all
    grep -v '^{' all
}
run
run
file b/src/lib.rs 'warn more'
run
file words 'two'
run
GREETING=hello
export GREETING
run
run --features more
run --release
run --features more
