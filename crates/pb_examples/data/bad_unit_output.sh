# What a child wrote that no message line holds is told where its unit is bad: both streams of a script, and of a
# compiler what is no diagnostic; nothing of units that are good.
package . a
file src/lib.rs
file build.rs 'print hello' 'exit 3'
build --runner "$RUSTC --run"
program loud.sh '#!/bin/sh' 'echo "to nobody" >&2' 'exec "$@"'
file build.rs 'print hello'
build --runner "$PWD/loud.sh $RUSTC --run"
file build.rs 'print cargo::error=no' 'print hello'
build --runner "$PWD/loud.sh $RUSTC --run"
rm build.rs
program rustc.sh '#!/bin/sh' 'case $1 in -vV) exec "$SMALL" -vV;; esac' 'echo >&2' 'echo "{\"rendered\":\"a diagnostic\"}" >&2' 'printf "no option of ours" >&2' 'exit 1'
SMALL=$RUSTC
export SMALL
build_by "$PWD/rustc.sh"
build
