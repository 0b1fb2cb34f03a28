# There is no such compiler.
package . a
file src/lib.rs
build_by "$PWD/none"
