# Two build scripts wait for each other: with two jobs both see the other one, and with one job the first waits in vain.
file w/Cargo.toml '[workspace]' 'members = ["a", "b"]'
for name in a b; do
    package w/$name $name
    file w/$name/src/lib.rs
    file w/$name/build.rs
done
program both.sh '#!/bin/sh' "until [ -e $PWD/met/a ] && [ -e $PWD/met/b ]; do sleep 0.02; done"
meet() {
    rm -rf met w/target
    mkdir met
    file meet.sh ": > $PWD/met/\$CARGO_PKG_NAME" "timeout $1 $PWD/both.sh || exit 3"
    shift
    build --manifest-path w/Cargo.toml --runner "sh $PWD/meet.sh" "$@"
}
meet 60 --jobs 2
meet 0.5 --jobs 1
