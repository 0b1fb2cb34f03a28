# Two compilers are at work side by side, and one dies. If it is the first, what the other one makes has no record and
# is made again; if it is the second, the first one's work is kept.
file Cargo.toml '[workspace]' 'members = ["a", "b"]'
for name in a b; do
    package $name $name
    file $name/src/lib.rs
done
program compiles.sh '#!/bin/sh' '[ "$2" != "$(cat dies)" ] || kill -9 $$' 'sleep 0.02' "exec $RUSTC \"\$@\""
file dies a
build_by "$PWD/compiles.sh" -j 2
ls target/debug target/debug/b.target.lib
file dies b
build_by "$PWD/compiles.sh" --jobs 2
ls target/debug
file dies none
build_by "$PWD/compiles.sh" --jobs 2
