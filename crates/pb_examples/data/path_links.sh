# Links that lead nowhere count as absent; one that leads to a file is followed.
ln -s nowhere Cargo.toml
build
rm Cargo.toml
package . a
file kept.rs 'print kept'
mkdir src
ln -s nowhere src/lib.rs
ln -s itself itself
ln -s itself build.rs
build
rm src/lib.rs
ln -s ../kept.rs src/lib.rs
build
cat target/debug/a.target.lib/liba.rlib
