# Manifests that are saved while a compiler is at work. The notes on this build are about what the build has read, and the
# notes on the next build about what is there then. The compiler carries out the commands in the file `act`.
file Cargo.toml '[workspace]' 'members = ["packages/*"]' 'resolver = "2"'
program compiler.sh '#!/bin/sh' \
    'if [ "$1" != -vV ] && [ -e act ]; then . ./act; rm act; fi' \
    'exec pb_mini "$@"'
RUSTC=$PWD/compiler.sh
saved() {
    echo "saved: $1"
    rm -rf target packages
    package packages/a a 'color = "red"'
    file packages/a/src/lib.rs
    file act "$1"
    for number in 1 2; do
        pb_tool build --explain 2>&1 > lines
    done
}
saved true
saved 'echo "colour = 1" >> packages/a/Cargo.toml'
saved 'grep -v color packages/a/Cargo.toml > new; mv new packages/a/Cargo.toml'
saved 'cp -r packages/a packages/b; sed s/\"a\"/\"b\"/ packages/a/Cargo.toml > packages/b/Cargo.toml'
