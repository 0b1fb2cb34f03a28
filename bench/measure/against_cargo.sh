#!/usr/bin/env bash
# Builds workspaces with the program and with cargo, and prints the tables of docs/SPEED.md. Both use the same rustc,
# without incremental compiles, with one job and with as many as there are processors.
#
# PARTS names what is measured (default: all):
#
#   side     both builders over nine workspaces: a clean build; nothing changed; after an edit of the lowest package's source;
#            of the topmost package's; after a change of a variable that the lowest package's script names. Seconds of the
#            clock, and of the processor for the builder and its children; the builder's greatest memory, seen every few
#            milliseconds; compiles, by `"fresh":false`. Each figure is the least of ROUNDS rounds (5) with three builds of
#            "nothing changed" each; the builders take turns. After LIMIT minutes no further round is begun.
#   nothing  builds with nothing changed alone, twenty of each builder, by turns
#   calls    the calls of the system in a build with nothing changed, by strace
#   growth   a build with nothing changed of 64 to 4,096 units side by side, and of chains of 64, 128 and 256, with the small
#            compiler: instructions outside the kernel by valgrind, memory, and the exponents
#   dear     the first five functions of such a build, by callgrind
#   wide     one slow package beside 120 quick ones: the least of ROUNDS clean builds, the builders by turns
#
# SHAPES=WORDS takes these workspaces alone: chain, side, shared, scripts, files, beside0, beside100, beside1000, example.
# RESULTS=FILE keeps the figures of `side` round by round, and begins with those that it has: rounds of several runs then
# make one table, and ROUNDS=0 prints it. PROGRAM=FILE and COMPILER=FILE name a `pb_tool` and a `pb_mini` that are made
# already. The status is 1 if a build fails that must not, or if a builder starts a child though nothing has changed. It does
# not depend on times.
set -euo pipefail
here="$(cd "$(dirname "$0")" && pwd)"
top="$(cd "$here/../.." && pwd)"
folder="$(mktemp -d)"
trap 'rm -rf "$folder"' EXIT
. "$top/bench/program.sh"
program="${PROGRAM:-$(make_program "$top" "$folder")}"
compiler="${COMPILER:-$(make_compiler "$top" "$folder")}"
python3 "$here/against_cargo.py" "$program" "$compiler" "$folder" "$top" "${PARTS:-side nothing calls growth dear wide}" "${SHAPES:-chain side shared scripts files beside0 beside100 beside1000 example}" "${ROUNDS:-5}" "${LIMIT:-0}" "${RESULTS:-}"
