# The manifest is named from a folder beside it, and the target folder by a variable, from the root.
package . a
file src/lib.rs
mkdir beside
cd beside || exit
CARGO_TARGET_DIR=made
export CARGO_TARGET_DIR
build --manifest-path ../Cargo.toml
build
cd ..
ls
