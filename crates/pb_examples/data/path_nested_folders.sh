# Binaries are looked for in folders of which at most 128 lie in one another.
package . a
file src/lib.rs
deep=src/bin$(printf '%0128d' 0 | sed 's,0,/d,g')
mkdir -p "$deep"
build
mkdir "$deep/d"
build
