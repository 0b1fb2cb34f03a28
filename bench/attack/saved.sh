#!/usr/bin/env bash
# Saves files during a build, on real folders. The small compiler runs behind a shell script: it reads, then something
# is saved, then the child ends. After each scene the script builds until nothing is started. It compares what exists with a
# clean build of the present files.
#
# A scene is right if all of this is true:
#
# - the notes of the first build name exactly the units that are built again
# - the second build starts exactly these, and the units that reach them
# - the third build starts none
# - each library is the one that a clean build makes
#
# The last scene builds EDITS times (100) right after a save: no note, and the next build starts none.
#
# PROGRAM=FILE and COMPILER=FILE name a `pb_tool` and a `pb_mini` that are made already. The status is 1 if a scene is
# wrong.
set -euo pipefail
here="$(cd "$(dirname "$0")" && pwd)"
top="$(cd "$here/../.." && pwd)"
folder="$(mktemp -d)"
trap 'rm -rf "$folder"' EXIT
. "$top/bench/program.sh"
export PROGRAM="${PROGRAM:-$(make_program "$top" "$folder")}"
export COMPILER="${COMPILER:-$(make_compiler "$top" "$folder")}"
unset RUSTFLAGS CARGO_TARGET_DIR
wrong=0

# The child of each unit: the small compiler or a script, and then the commands in `$ACT`, once, if the unit's output
# folder is `$UNIT`. The commands come later than the clock of the file system can tell from the spawn.
cp "$here/saved_child.sh" "$folder/child.sh"
chmod +x "$folder/child.sh"
export RUSTC="$folder/child.sh"

# Builds, and says which units were noted and which were started.
build() {
    "$PROGRAM" build --jobs 2 --runner "$RUSTC --run" --explain "$@" > lines 2> said || true
    noted="$(sed -n 's/^note: .* was changed while \(.*\) was built: that unit will be built again$/\1/p' said | tr '\n' ' ')"
    started="$(sed -n 's/^\(.*\): started, since .*/\1/p' said | tr '\n' ' ')"
}

# scene NAME UNIT COMMANDS NOTED STARTED: in the folder of the workspace, which has been made.
scene() {
    local name="$1" unit="$2" commands="$3" want_noted="$4" want_started="$5"
    export UNIT="$unit" ACT="$folder/act"
    printf '%s\n' "$commands" > "$ACT"
    build
    local first="$noted"
    build
    local second="$started" again="$noted"
    build
    local third="$started"
    rm -rf "$folder/nothing"
    "$PROGRAM" build --runner "$RUSTC --run" --target-dir "$folder/nothing" > from_nothing 2>&1 || true
    local unlike=""
    for file in $(cd target && find . -name '*.rlib'); do
        cmp -s "target/$file" "$folder/nothing/$file" || unlike="$unlike $file"
    done
    local verdict=right
    if [ "$first" != "$want_noted" ] || [ "$second" != "$want_started" ] || [ -n "$again" ] || [ -n "$third" ] || [ -n "$unlike" ]; then
        verdict=WRONG
        wrong=1
        cat said
    fi
    echo "$verdict  $name: noted ${first:-none }| started then ${second:-none }${again:+| noted again $again}${third:+| started at last $third}${unlike:+| unlike$unlike}"
}

# A workspace of one package with a library that includes a file, and another that needs it.
workspace() {
    rm -rf "$folder/w"
    mkdir -p "$folder/w/src" "$folder/w/b/src"
    cd "$folder/w"
    printf '[workspace]\nmembers = ["b"]\n[package]\nname = "a"\nversion = "0.1.0"\nedition = "2021"\n' > Cargo.toml
    printf '[package]\nname = "b"\nversion = "0.1.0"\nedition = "2021"\n[dependencies]\na = { path = ".." }\n' > b/Cargo.toml
    printf 'print old\ninclude part\n' > src/lib.rs
    echo part > src/part
    echo 'use a' > b/src/lib.rs
}
all='a.target.lib b.target.lib '

workspace
scene 'a source is saved' a.target.lib 'echo "print new" > src/lib.rs' 'a.target.lib ' 'a.target.lib '
workspace
sed -i 's/members = \["b"\]/members = ["b"]\ndefault-members = [".", "b"]/' Cargo.toml
scene 'a source is saved, another package needs it' a.target.lib 'echo "print new" > src/lib.rs' 'a.target.lib ' "$all"
workspace
scene 'a save restores the old text' a.target.lib 'cp src/lib.rs old; echo "print new" > src/lib.rs; cat old > src/lib.rs' 'a.target.lib ' 'a.target.lib '
workspace
scene 'another file is renamed over the source' a.target.lib 'echo "print new" > new; mv new src/lib.rs' 'a.target.lib ' 'a.target.lib '
workspace
scene 'a save with an old time' a.target.lib 'echo "print new" > src/lib.rs; touch -d 2001-01-01 src/lib.rs' 'a.target.lib ' 'a.target.lib '
workspace
scene 'an included file is saved' a.target.lib 'echo more > src/part' 'a.target.lib ' 'a.target.lib '
workspace
scene 'a file that nothing reads is saved' a.target.lib 'echo more > src/other' '' ''
workspace
scene 'the manifest is saved' a.target.lib 'echo "description = \"d\"" >> Cargo.toml' '' 'a.target.lib '

# A package with a script that names no input.
script() {
    workspace
    echo 'put f text' > build.rs
}
script
scene 'a new file in the folder of a script' /a.target.run 'echo more > new' 'a.target.run ' 'a.target.run a.target.lib '
script
scene 'a file goes from the folder of a script' /a.target.run 'rm b/src/lib.rs; : > b/src/lib.rs' 'a.target.run ' 'a.target.run a.target.lib '

# Two units that read one source, in flight at one time.
workspace
mkdir src/bin
echo 'include ../part' > src/bin/c.rs
echo 'include ../part' > src/bin/d.rs
echo 'print old' > src/lib.rs
scene 'a source of two units in flight' a.target.bin-c 'echo more > src/part' 'a.target.bin-c a.target.bin-d ' 'a.target.bin-c a.target.bin-d '

workspace
export UNIT=none ACT="$folder/none"
edits="${EDITS:-100}"
for number in $(seq "$edits"); do
    echo "print of $number" > src/lib.rs
    build
    if [ -n "$noted" ] || [ "$started" != 'a.target.lib ' ]; then
        echo "WRONG  edit $number: noted $noted| started $started"
        wrong=1
    fi
    build
    if [ -n "$noted$started" ]; then
        echo "WRONG  after edit $number: noted $noted| started $started"
        wrong=1
    fi
done
echo "edits right before a build: $edits, each built once"
exit $wrong
