# The device takes no name of 300 letters: a folder of records that cannot be listed, a manifest that cannot be read.
long=$(printf '%0300d' 0 | tr 0 x)
package . a
file src/lib.rs
build --target-dir "$long" | sed "s/$long/x/"
package . a '[dependencies]' "q = { path = \"$long\" }"
build | sed "s/$long/x/"
