# A build script leaves a link to its own folder, and a name that is no text. Nothing looks there: neither the members'
# pattern, nor what looks for binaries, nor what looks for records. When the script has changed, its folder is emptied.
file Cargo.toml '[workspace]' 'members = ["m*"]' 'resolver = "2"'
package m m
file m/src/lib.rs
file m/build.rs
program compiles.sh '#!/bin/sh' "$RUSTC \"\$@\" || exit" '[ "$2" != build_script_build ] || cp -p own.sh target/debug/m.target.script/build_script_build'
program own.sh '#!/bin/sh' 'ln -s . "$OUT_DIR/loop" && : > "$OUT_DIR/$(printf "\377")"'
build_by "$PWD/compiles.sh"
build_by "$PWD/compiles.sh"
file m/build.rs '# changed'
build_by "$PWD/compiles.sh"
