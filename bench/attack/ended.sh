#!/usr/bin/env bash
# Ends builds from outside, at random moments, and looks at what is left. It uses the real compiler, if there is one,
# and the small one, with one child process at a time and with four.
#
#   SIGINT     to the builder's process group, as a terminal sends it
#   SIGHUP     the builder's terminal is closed
#   SIGKILL    to the group
#
# If a build ended before its moment, another one is tried. Clean builds and builds after an edit take turns. After each
# second edit the target folder is removed. Then:
#
# - no child may be left (each has a variable by which /proc shows it, even in a group of its own)
# - the next build must print and make what a clean build does: the same lines except for `fresh`, and the same files in
#   the folder of each unit
#
# Then pairs of builds run in one target folder; the second begins at a random moment of the first. What they print is
# counted. A build after them must print and make what a clean build does.
#
# Last, sources are edited at a random moment of a build, and between the beginnings of two builds. No promise covers
# this. The script prints how often the next build differs from a clean one; that does not change the status.
#
# PROGRAM=FILE and COMPILER=FILE name a `pb_tool` and a `pb_mini` that are made already. MOMENTS=N is the number of moments
# and of pairs of each kind (20), SEED=N chooses others, ONLY=rustc or ONLY=pb_mini takes one compiler alone. The status is
# 0 only if all was well.
set -euo pipefail
here="$(cd "$(dirname "$0")" && pwd)"
top="$(cd "$here/../.." && pwd)"
folder="$(mktemp -d)"
trap 'rm -rf "$folder"' EXIT
. "$top/bench/program.sh"
program="${PROGRAM:-$(make_program "$top" "$folder")}"
compiler="${COMPILER:-$(make_compiler "$top" "$folder")}"
python3 "$here/ended.py" "$program" "$compiler" "$folder" "${MOMENTS:-20}" "${SEED:-1}" "${ONLY:-}"
