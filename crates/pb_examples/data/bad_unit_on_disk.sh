# A source with an error, and the same without.
package . a
file src/lib.rs 'fail no'
build
file src/lib.rs
build
