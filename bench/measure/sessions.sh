#!/usr/bin/env bash
# Measures the session program on sessions of several kinds and sizes, each size twice the one before. A run includes
# reading the session file. It prints a line for each session:
#
#   kind, size
#   time        of the processor, in milliseconds: the least of several runs, user and system together
#   memory      the greatest resident set, in MB
#   count       millions of instructions outside the kernel, by valgrind; they are the same in each run
#   by size     the exponent of growth of these instructions from the size before: 1 is linear
#   by bytes    the same, by the bytes of all commands and of what their children read, if these grow otherwise
#   children    the part of the instructions that the small compiler takes, in percent
#
# Without valgrind, or with NO_COUNTS, the exponents are those of time. SIZES=small takes half a minute. KINDS=WORD takes the
# kinds with this word in their names, RUNS=N is the number of runs. PROGRAM=FILE names a program that is made already.
set -euo pipefail
here="$(cd "$(dirname "$0")" && pwd)"
top="$(cd "$here/../.." && pwd)"
folder="$(mktemp -d)"
trap 'rm -rf "$folder"' EXIT
. "$top/bench/program.sh"
program="${PROGRAM:-$(make_program "$top" "$folder")}"
python3 "$here/sessions.py" "$program" "$folder" "${SIZES:-full}" "${KINDS:-}" "${RUNS:-5}"
