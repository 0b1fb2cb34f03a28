# What a fault is about stands before the last line of a build that failed, where the fault says more than its name: a
# manifest, the key of a value, the packages of a circle, a line of a script's output, an input in the target folder,
# the call that failed.
package . a '[dependencies]' 'b = { path = "b" }'
file src/lib.rs
build
package b b '[lib]' 'path = 1'
build
file b/Cargo.toml '['
build
package b b '[dependencies]' 'a = { path = ".." }'
file b/src/lib.rs
build
package b b
file b/build.rs 'print cargo::warning=w' 'print cargo::unknown=x'
build --runner "$RUSTC --run"
file b/build.rs "print cargo::rerun-if-changed=$PWD/target/x"
build --runner "$RUSTC --run"
chmod 000 Cargo.toml
build
