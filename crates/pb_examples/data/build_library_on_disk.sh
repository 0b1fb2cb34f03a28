# A library is built twice, and then looked at.
package . a
file src/lib.rs
build
build
cat target/debug/a.target.lib/liba.rlib target/debug/a.target.lib/a.d
