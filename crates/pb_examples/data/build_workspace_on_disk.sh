# Two packages, a feature, a build script and a binary, which is run.
file Cargo.toml '[workspace]' 'members = ["a", "b"]' 'resolver = "2"'
package a a '[dependencies]' 'b = { path = "../b", features = ["f"] }'
file a/src/main.rs 'use b' 'print done'
package b b '[features]' 'f = []'
file b/build.rs 'print cargo::rustc-cfg=made' 'show COLOUR'
file b/src/lib.rs 'when made print made' 'when feature="f" print f' 'env SHOW_COLOUR'
COLOUR=blue
export COLOUR
build -p a --release --runner "$RUSTC --run"
pb_mini --run "$PWD/target/release/a.target.bin-a/a"
cat target/release/a.target.bin-a/a
