# A dependency that has no library is noted, and the build goes on; so is one that has no source at all.
package . a '[dependencies]' 'q = { path = "q" }'
file src/lib.rs
package q q
file q/src/main.rs
build
rm -r q/src
build
