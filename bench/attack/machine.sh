#!/usr/bin/env bash
# Scenes in which a real machine is no map of paths: links, folders with two names, rights, locks, programs of the same
# name. Each scene prints what came and what had to come. With `cargo` and `rustc` (CARGO=no leaves them out) cargo builds
# the scenes of links too, with an edit between two builds, and both must make the same program.
#
# PROGRAM=FILE and COMPILER=FILE name a `pb_tool` and a `pb_mini` that are made already. Run by root, the scene of rights
# needs a user `nobody`. The status is 1 if a scene is wrong.
set -euo pipefail
here="$(cd "$(dirname "$0")" && pwd)"
top="$(cd "$here/../.." && pwd)"
folder="$(mktemp -d)"
chmod 755 "$folder"
trap 'chmod -R u+rwx "$folder"; rm -rf "$folder"' EXIT
. "$top/bench/program.sh"
export PROGRAM="${PROGRAM:-$(make_program "$top" "$folder")}"
export COMPILER="${COMPILER:-$(make_compiler "$top" "$folder")}"
unset RUSTFLAGS CARGO_TARGET_DIR
wrong=0

# say NAME WANTED CAME
say() {
    if [ "$2" = "$3" ]; then
        echo "right  $1: $3"
    else
        echo "WRONG  $1: $3, and not $2"
        wrong=1
    fi
}

package() {
    mkdir -p "$1/src"
    printf '[package]\nname = "%s"\nversion = "0.1.0"\nedition = "2021"\n' "$2" > "$1/Cargo.toml"
}

started() { sed -n 's/^\([0-9]* started\), .*/\1/p' "$1"; }

# A link, and `..` behind it. Each scene leaves a workspace at `ws`, whose binary `a` prints what is in the file `edited`.

linked_source() {
    mkdir -p real/src
    package ws a
    rmdir ws/src
    ln -s ../real/src ws/src
    edited=real/greeting.txt
    echo 'fn main() { print!("{}", include_str!("../greeting.txt")); }' > real/src/main.rs
}

linked_module() {
    package ws a
    mkdir -p real/m
    ln -s ../../real/m ws/src/m
    edited=real/greeting.txt
    echo 'mod m; fn main() { print!("{}", m::text()); }' > ws/src/main.rs
    echo 'pub fn text() -> &'"'"'static str { include_str!("../greeting.txt") }' > real/m/mod.rs
}

linked_member() {
    mkdir -p real/inner
    package real/inner/a a
    mkdir ws
    printf '[workspace]\nmembers = ["a"]\nresolver = "2"\n' > ws/Cargo.toml
    ln -s ../real/inner/a ws/a
    edited=real/inner/shared.txt
    echo 'fn main() { println!("cargo:rerun-if-changed=../shared.txt"); println!("cargo:rustc-env=TEXT={}", std::fs::read_to_string("../shared.txt").unwrap().trim()); }' > ws/a/build.rs
    echo 'fn main() { println!("{}", env!("TEXT")); }' > ws/a/src/main.rs
}

linked_root() {
    mkdir -p real
    package real/inner a
    ln -s real/inner ws
    edited=real/greeting.txt
    echo 'fn main() { print!("{}", include_str!("../../greeting.txt")); }' > ws/src/main.rs
}

linked_folder_of_a_script() {
    package ws a
    mkdir -p real/proto
    ln -s ../real/proto ws/proto
    edited=real/common.proto
    echo 'fn main() { println!("cargo:rerun-if-changed=proto/../common.proto"); println!("cargo:rustc-env=TEXT={}", std::fs::read_to_string("proto/../common.proto").unwrap().trim()); }' > ws/build.rs
    echo 'fn main() { println!("{}", env!("TEXT")); }' > ws/src/main.rs
}

linked_dependency() {
    mkdir -p real/inner
    package ws a
    package real/inner/b b
    package ws/x x
    ln -s ../real/inner/b ws/b
    printf '[dependencies]\nb = { path = "b" }\n' >> ws/Cargo.toml
    printf '[dependencies]\nx = { path = "../x" }\n' >> real/inner/b/Cargo.toml
    edited=ws/x/src/text
    echo 'pub fn text() -> &'"'"'static str { include_str!("text") }' > ws/x/src/lib.rs
    echo 'pub fn text() -> &'"'"'static str { x::text() }' > real/inner/b/src/lib.rs
    echo 'fn main() { print!("{}", b::text()); }' > ws/src/main.rs
}

if [ "${CARGO:-yes}" != no ]; then
    for scene in linked_source linked_module linked_member linked_root linked_folder_of_a_script linked_dependency; do
        mkdir "$folder/$scene"
        cd "$folder/$scene"
        "$scene"
        echo old > "$edited"
        "$PROGRAM" build --manifest-path ws/Cargo.toml --target-dir "$PWD/ours" > one 2>&1 || cat one
        cargo build --quiet --manifest-path ws/Cargo.toml --target-dir theirs
        first="$(ours/debug/a.target.bin-a/a) $(theirs/debug/a)"
        sleep 0.1
        echo new > "$edited"
        "$PROGRAM" build --manifest-path ws/Cargo.toml --target-dir "$PWD/ours" > two 2>&1 || cat two
        cargo build --quiet --manifest-path ws/Cargo.toml --target-dir theirs
        second="$(ours/debug/a.target.bin-a/a) $(theirs/debug/a)"
        "$PROGRAM" build --manifest-path ws/Cargo.toml --target-dir "$PWD/ours" --explain > three 2> said || cat said
        say "$scene, by us and by cargo" 'old old, new new, 0 started' "$first, $second, $(started said)"
    done
fi

# From here on with the small compiler.
export RUSTC="$COMPILER"
build() { "$PROGRAM" build --runner "$COMPILER --run" "$@"; }

script_in() {
    package "$1" a
    : > "$1/src/lib.rs"
    echo 'put f text' > "$1/build.rs"
}

# Several target folders in a package with a script that names no input: no record grows, and none is an input.
mkdir -p "$folder/targets/ws"
cd "$folder/targets/ws"
script_in .
for round in 1 2 3 4; do
    for target in target other; do
        for profile in dev release; do build --target-dir $target --profile $profile > ../lines 2>&1; done
    done
    [ $round != 1 ] || first="$(stat -c %s target/debug/a.target.run.record)"
done
build --explain > ../lines 2> ../said
say 'records beside another target folder' "$first bytes, 0 started" "$(stat -c %s target/debug/a.target.run.record) bytes, $(started ../said)"

# The target folder under a second name: a link to it in the package, and a path through a link.
mkdir "$folder/names"
cd "$folder/names"
script_in ws
ln -s target ws/again
(cd ws && build > ../lines 2>&1 && build --explain > ../lines 2> ../said)
say 'a link to the target folder among the sources' '0 started' "$(started said)"
(cd ws && rm again && ln -s target/debug out && ln -s target/debug/a.target.run.record one && build > ../lines 2>&1 && build --explain > ../lines 2> ../said)
say 'links into the target folder among the sources' '0 started' "$(started said)"
ln -s ws through
(cd ws && rm out one && export CARGO_TARGET_DIR="$folder/names/through/target" && build > ../lines 2>&1 && build --explain > ../lines 2> ../said)
say 'a target folder named through a link' '0 started' "$(started said)"

# The tag: not by a refused build; beside the line of another program; and taken for sources no more.
mkdir "$folder/tag"
cd "$folder/tag"
script_in .
build --profile none > lines 2>&1 || true
say 'a refused build' 'no target folder' "$([ -e target ] && echo 'a target folder' || echo 'no target folder')"
mkdir target
printf 'Signature: 8a477f597d28d172789f06886806bc55\n# of another program\n' > target/CACHEDIR.TAG
build > lines 2>&1
build > lines 2>&1
say 'the tag of another program' '1 line of theirs, 1 of ours' "$(grep -c '^# of another program$' target/CACHEDIR.TAG) line of theirs, $(grep -c '^# This is a target folder of pb_tool\.$' target/CACHEDIR.TAG) of ours"

mkdir own
: > own/notes
build --target-dir own > lines 2>&1
say 'a folder with files of its own' 'no tag' "$([ -e own/CACHEDIR.TAG ] && echo 'a tag' || echo 'no tag')"

# The program that is asked for its version is the one that compiles.
mkdir -p "$folder/path/ours" "$folder/path/theirs"
cd "$folder/path"
script_in .
printf 'print cargo::rustc-env=PATH=%s\n' "$folder/path/theirs" > build.rs
printf '#!/bin/sh\n[ "$1" = -vV ] || echo "$*" >> %s\nexec %s "$@"\n' "$folder/path/ours/log" "$COMPILER" > ours/compiler
printf '#!/bin/sh\necho "$*" >> %s\nexec %s "$@"\n' "$folder/path/theirs/log" "$COMPILER" > theirs/compiler
chmod +x ours/compiler theirs/compiler
RUSTC=compiler PATH="$folder/path/ours:$PATH" "$PROGRAM" build --runner "$COMPILER --run" > lines 2> said || cat said
say 'a script that sets PATH' 'ours compiled 2, theirs 0' "ours compiled $(wc -l < ours/log), theirs $(cat theirs/log 2> /dev/null | wc -l)"

# A folder that a script left, and that its owner may not write in.
mkdir "$folder/rights"
cd "$folder/rights"
script_in .
printf '#!/bin/sh\n%s "$@" || exit 1\nmkdir -p "$OUT_DIR/tree/deep"; : > "$OUT_DIR/tree/deep/file"; chmod 555 "$OUT_DIR/tree/deep" "$OUT_DIR/tree"\n' "$COMPILER" > run.sh
chmod +x run.sh
cp "$PROGRAM" "$COMPILER" .
if [ "$(id -u)" = 0 ]; then
    chown -R nobody .
    as() { setpriv --reuid nobody --clear-groups env HOME=/ "$@"; }
else
    as() { "$@"; }
fi
mine=("./$(basename "$PROGRAM")" build --manifest-path "$PWD/Cargo.toml" --runner "$PWD/run.sh --run" --explain)
export RUSTC="$PWD/$(basename "$COMPILER")"
as "${mine[@]}" > lines 2> said || cat said
echo 'put f more' > build.rs
status=0
as "${mine[@]}" > lines 2> said || status=$?
say 'a read-only folder in an output folder' 'status 0, 3 started' "status $status, $(started said)"
# A file of another user in an output folder: which it is that cannot be removed.
if [ "$(id -u)" = 0 ]; then
    mkdir -p target/debug/a.target.run/locked
    : > target/debug/a.target.run/locked/file
    echo 'put f again' > build.rs
    as "${mine[@]}" > lines 2> said || true
    say 'a file that cannot be removed' "note: cannot remove $PWD/target/debug/a.target.run/locked/file: Permission denied" "$(grep '^note: cannot' said || true)"
fi
export RUSTC="$COMPILER"

# What is reported of faults.
mkdir "$folder/faults"
cd "$folder/faults"
package . a
: > src/lib.rs
# fault COMPILER: what follows the sentence of the fault, which is the first note
fault() { RUSTC="$1" "$PROGRAM" build > lines 2> said || true; tail -n +2 said | tr '\n' '|'; }
# compiler NAME LINES
compiler() { printf '#!/bin/sh\n%s\n' "$2" > "$1"; chmod +x "$1"; }
say 'no such compiler' "note: cannot start $PWD/none in $PWD: No such file or directory|error: fault -vV CannotStart|" "$(fault "$PWD/none")"
say 'no such compiler in PATH' "note: cannot start no_such_program in $PWD: no folder of PATH has it|error: fault -vV CannotStart|" "$(fault no_such_program)"
compiler silent 'exit 0'
say 'a compiler that prints nothing' "note: $PWD/silent -vV ended with status 0|error: fault -vV Toolchain|" "$(fault "$PWD/silent")"
compiler angry 'echo "no toolchain" >&2; exit 1'
say 'a compiler that complains' "note: $PWD/angry -vV ended with status 1|note: it wrote: no toolchain|error: fault -vV Toolchain|" "$(fault "$PWD/angry")"
compiler killed "[ \"\$1\" = -vV ] && exec $COMPILER -vV; kill -9 \$\$"
say 'a compiler that is killed' 'note: the child of a.target.lib was ended by signal 9|error: fault a.target.lib Died|' "$(fault "$PWD/killed")"

# The long record of a script that names no input.
mkdir "$folder/long"
cd "$folder/long"
script_in .
head -c 17000000 /dev/zero > film
build > ../lines 2> ../said || cat ../said
say 'a long record' "$PWD/film (17000000 bytes)" "$(sed -n 's/^note: the record of a.target.run has [0-9]* bytes: .* The largest: \([^,]*\), .*/\1/p' ../said)"
build > ../lines 2> ../said || cat ../said
say 'a long record that is kept' '0 notes' "$(grep -c '^note: the record' ../said || true) notes"

# A link that a script leaves in its output folder: a note names it, unless the script printed where it leads.
mkdir "$folder/link"
cd "$folder/link"
script_in .
echo text > data.txt
# run.sh leads a link in the output folder to a source
printf '#!/bin/sh\n%s "$@" || exit 1\nln -s %s "$OUT_DIR/d"\n' "$COMPILER" "$PWD/data.txt" > run.sh
chmod +x run.sh
echo 'print cargo::rerun-if-changed=build.rs' > build.rs
"$PROGRAM" build --runner "$PWD/run.sh --run" > lines 2> said || cat said
say 'a link out of the target folder' "note: in $PWD/target/debug/a.target.run/d: this link leads to $PWD/data.txt" "$(sed -n 's/, out of the target folder; .*//p' said)"
echo "print cargo::rerun-if-changed=$PWD/data.txt" > build.rs
"$PROGRAM" build --runner "$PWD/run.sh --run" > lines 2> said || cat said
say 'a link whose goal is an input' '' "$(cat said)"
echo more > data.txt
"$PROGRAM" build --runner "$PWD/run.sh --run" --explain > lines 2> said || cat said
say 'an edit behind such a link' '2 started' "$(started said)"

# The lock of a folder that is gone: the second build waits, the folder is removed, and a third begins.
mkdir "$folder/lock"
cd "$folder/lock"
package . a
: > src/lib.rs
cat > slow.sh <<SH
#!/bin/sh
[ "\$1" = -vV ] && exec $COMPILER -vV
echo begins >> $folder/lock/log
sleep 0.5
echo ends >> $folder/lock/log
exec $COMPILER "\$@"
SH
chmod +x slow.sh
export RUSTC="$folder/lock/slow.sh"
flock_on() { python3 -c 'import fcntl, os, sys, time
folder = os.open("target", os.O_RDONLY)
fcntl.flock(folder, fcntl.LOCK_EX)
open("held", "w").close()
while not os.path.exists("free"): time.sleep(0.01)'; }
mkdir target
flock_on &
until [ -e held ]; do sleep 0.01; done
"$PROGRAM" build > one 2> two &
until [ -s two ]; do sleep 0.01; done
mv target gone
"$PROGRAM" build > three 2> four &
until [ -e log ]; do sleep 0.01; done
: > free
wait
say 'a lock of a folder that is gone' 'begins ends' "$(sort log | uniq | tr '\n' ' ' | sed 's/ $//')"
overlaps="$(uniq -c log | awk '$1 > 1' | wc -l)"
say 'builds at one time' '0' "$overlaps"
exit $wrong
