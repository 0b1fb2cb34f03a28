# Parts that these scripts share, to measure one call of a crate over workspaces in memory. They read this file.
#
# A script sets `crates` (those that are copied) and `uses` (those that its program uses), writes the program's `main` with
# `program`, and calls `measured SHAPE COUNT..` for each shape. The modules `measuring`, `child`, `files`, `workspace` and
# `making` are put beside `main` if it names them.
#
# KEPT=FOLDER keeps what is proved, for all these scripts; its crates are those that were copied first. TRY=COMMAND runs the
# proof under a command, as `nice`. Without a kept folder, a program takes three to six minutes to prove, over proved
# libraries and beside other checks.
#
# The program is called with a shape, a count and a number of calls. It prints the size of the answer and the least time of
# a call (of five), in microseconds of processor time. Instructions (by valgrind) and memory (the greatest resident set) are
# those with one call, less those with none.
set -euo pipefail
shared="$(cd "$(dirname "${BASH_SOURCE[0]}")" && pwd)"
top="$(cd "$shared/../.." && pwd)"
if [ -n "${KEPT:-}" ]; then
    folder="$KEPT"
else
    folder="$(mktemp -d)"
    trap 'rm -rf "$folder"' EXIT
fi

# What the programs share: `measuring`, the time of a call and the words of the command line; `files`, files in memory;
# `workspace`, the workspace among them and a build of it; `making`, the project of that build and what its scripts said.
modules() {
    cp "$shared/shared_measuring.rattle" "$1/measuring.rt"
    if grep -q '^mod child;' "$1/main.rt"; then cp "$top/crates/pb_tests_files/src/child.rt" "$1/"; fi
    if grep -q '^mod untold;' "$1/main.rt"; then cp "$top/crates/pb_tests_files/src/untold.rt" "$1/"; fi
    if grep -q '^mod files;' "$1/main.rt"; then files "$1"; fi
    if grep -q '^mod workspace;' "$1/main.rt"; then workspace "$1"; fi
    if grep -q '^mod making;' "$1/main.rt"; then making "$1"; fi
}

files() {
    cp "$shared/shared_files.rattle" "$1/files.rt"
}

workspace() {
    cp "$shared/shared_workspace.rattle" "$1/workspace.rt"
}

making() {
    cp "$shared/shared_making.rattle" "$1/making.rt"
}

program() {
    local name="measure_$(basename "$0" .sh)" crate
    mkdir -p "$folder/crates/$name/src"
    touch "$folder/crates.txt"
    for crate in $crates; do
        if [ ! -d "$folder/crates/$crate" ]; then
            cp -a "$top/crates/$crate" "$folder/crates/"
            rm -rf "$folder/crates/$crate/must-fail"
        fi
        grep -q "^$crate:" "$folder/crates.txt" || grep "^$crate:" "$top/crates.txt" >> "$folder/crates.txt"
    done
    grep -q "^$name:" "$folder/crates.txt" || echo "$name: $uses anyhow" >> "$folder/crates.txt"
    cat > "$folder/crates/$name/src/main.rt"
    modules "$folder/crates/$name/src"
    (cd "$folder/crates/$name" && ${TRY:-} rt "${MODE:-run}" -- none 0 0) > "$folder/built" 2>&1 || {
        tail -40 "$folder/built"
        exit 1
    }
    runs="$(find "$folder/crates/$name/out" -maxdepth 1 -type f -perm -u+x -name 'measure*' | head -1)"
    printf '%12s %8s %8s %12s %14s %10s\n' shape count answer microseconds instructions KiB
}

# The instructions of a run.
instructions() {
    valgrind --tool=callgrind --callgrind-out-file=/dev/null "$runs" "$@" 2>&1 > /dev/null | awk '/Collected/ { print $NF }'
}

# The greatest resident set of a run, in KiB.
memory() {
    /usr/bin/time -f %M "$runs" "$@" 2>&1 > /dev/null | tail -1
}

# A line for each count, and then the exponents of its last two: the logarithm of the quotient of two times, or of two
# counts of instructions, to that of their counts, and to that of their answers where these differ.
measured() {
    local shape="$1" count said
    shift
    for count in "$@"; do
        said="$("$runs" "$shape" "$count" 5)"
        echo "$shape $count $said $(($(instructions "$shape" "$count" 1) - $(instructions "$shape" "$count" 0))) $(($(memory "$shape" "$count" 1) - $(memory "$shape" "$count" 0)))"
    done | awk '
        function exponents(by) { return sprintf("time %.2f, instructions %.2f", log(now[4] / old[4]) / by, log(now[5] / old[5]) / by) }
        { printf "%12s %8d %8d %12.0f %14.0f %10d\n", $1, $2, $3, $4, $5, $6 }
        { for (i = 1; i <= 6; i++) { old[i] = now[i]; now[i] = $i } }
        END {
            printf "%12s by count: %s\n", $1, exponents(log(now[2] / old[2]))
            if (now[3] != old[3]) printf "%12s by answer: %s\n", $1, exponents(log(now[3] / old[3]))
        }'
}
