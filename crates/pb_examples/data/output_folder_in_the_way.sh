# A file where the target folder would be.
package . a
file src/lib.rs
file target
build
