#!/usr/bin/env bash
# Builds while others write: another build, or an editor. The small compiler runs behind a shell script.
#
#   a second build    two builds in one target folder: the second one says that it waits, and does
#   an edit           a source changes after the compiler has read it: the next build makes the unit again
#
# After each scene it builds twice more. It prints whether the library is reported as fresh, whether it exists, and from
# which source it was made. Then PAIRS pairs of builds (20) begin at the same moment, with an edit before each pair. One
# of the two, and a build after them, must print what a clean build prints.
#
# PROGRAM=FILE and COMPILER=FILE name a `pb_tool` and a `pb_mini` that are made already. The status is 1 if a library is
# reported that does not exist, or that was made from another source.
set -euo pipefail
here="$(cd "$(dirname "$0")" && pwd)"
top="$(cd "$here/../.." && pwd)"
folder="$(mktemp -d)"
trap 'rm -rf "$folder"' EXIT
. "$top/bench/program.sh"
export PROGRAM="${PROGRAM:-$(make_program "$top" "$folder")}"
export COMPILER="${COMPILER:-$(make_compiler "$top" "$folder")}"
unset RUSTFLAGS CARGO_TARGET_DIR
wrong=0

scene() {
    mkdir -p "$folder/$1/src"
    cd "$folder/$1"
    printf '[package]\nname = "a"\nversion = "0.1.0"\nedition = "2021"\n' > Cargo.toml
    echo 'print old' > src/lib.rs
    { printf '#!/bin/sh\n[ "$1" = -vV ] && exec "$COMPILER" -vV\n'; cat; } > compile.sh
    chmod +x compile.sh
    export RUSTC="$folder/$1/compile.sh"
}

again() {
    for which in first second; do
        status=0
        "$PROGRAM" build > lines 2> said || status=$?
        fresh="$(grep -o '"fresh":[a-z]*' lines || echo 'no library told')"
        library=target/debug/a.target.lib/liba.rlib
        what="not there"
        if [ -e $library ]; then what="of the source $(cut -d' ' -f2- <<< "$(tail -n 1 $library)")"; fi
        stands="$(cut -d' ' -f2- src/lib.rs)"
        echo "$1, the $which build after it: status $status, $fresh, the library is $what, the source that stands is $stands"
        if [ "$what" != "of the source $stands" ]; then wrong=1; fi
    done
}

scene second <<'SH'
: > begun
until [ -s two ]; do sleep 0.02; done
exec "$COMPILER" "$@"
SH
"$PROGRAM" build > one 2>&1 &
until [ -e begun ]; do sleep 0.02; done
"$PROGRAM" build > other 2> two || true
wait $! || true
echo "a second build: it says '$(cat two)', and the lines of the two end with '$(tail -n 1 one)' and '$(tail -n 1 other)'"
again "a second build"

scene edit <<'SH'
"$COMPILER" "$@" || exit $?
[ -e edited ] || { : > edited; echo 'print new' > src/lib.rs; }
SH
"$PROGRAM" build > one 2>&1
again "an edit"

mkdir -p "$folder/pairs/src"
cd "$folder/pairs"
printf '[package]\nname = "a"\nversion = "0.1.0"\nedition = "2021"\n' > Cargo.toml
export RUSTC="$COMPILER"
unlike=0
for number in $(seq "${PAIRS:-20}"); do
    echo "print of $number" > src/lib.rs
    "$PROGRAM" build > one 2>&1 &
    "$PROGRAM" build > two 2>&1 || true
    wait $! || true
    "$PROGRAM" build > three 2>&1 || true
    rm -rf nothing
    "$PROGRAM" build --target-dir nothing > four 2>&1 || true
    for file in four one two three; do
        grep -v '^note: another build' $file | sed -e 's/"fresh":[a-z]*/"fresh":_/' -e "s|$PWD/nothing|$PWD/target|" > $file.told
        cmp -s $file.told four.told || unlike=$((unlike + 1))
    done
    cmp -s target/debug/a.target.lib/liba.rlib nothing/debug/a.target.lib/liba.rlib || unlike=$((unlike + 1))
done
echo "pairs: of ${PAIRS:-20} with a build after each, $unlike builds were not like the one from nothing"
[ $unlike = 0 ] || wrong=1
exit $wrong
