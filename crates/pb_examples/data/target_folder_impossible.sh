# A file stands where the target folder should, and a folder in which nothing can be made.
package . a
file src/lib.rs
file target
build
build --target-dir /proc/none
rm target
build
