#!/usr/bin/env bash
# Kills builds at random moments, in a long run on the real disk, and compares each later build with a clean one. It
# uses the generated sessions of `turns.sh`, the small compiler, and real child processes.
#
# For each build of a session, the files and variables are put on the disk. A build is begun and mostly killed (SIGKILL to
# its process group) at a random moment, up to three times, with one job or several. Then it runs to its end. Its target
# folder is put aside, a clean build is made in its place, and these must be the same:
#
#   lines      the message lines except for `fresh`, and the result except for what was started
#   files      the files in the folder of each unit that is reported
#
# Besides:
#
#   records    after a good build the record of each reported unit is whole, has its key, and names the numbers of the records
#              of the units that it needs (by `records.py`); all numbers in the folder are different
#   torn       a record that is not whole after a kill belongs to no unit that the next build calls fresh
#   again      after a good build, the same build starts nothing
#   left       no process that was begun here is left
#
# BUILDS=N builds are compared (300), SEED=N is the number of the first session (1). PROGRAM=FILE and COMPILER=FILE name a
# `pb_tool` and a `pb_mini` that are made already; PLACE=FOLDER is a folder on the disk to work on. It prints what was done.
# The status is 0 only if nothing was wrong.
set -euo pipefail
here="$(cd "$(dirname "$0")" && pwd)"
top="$(cd "$here/../.." && pwd)"
folder="$(mktemp -d ${PLACE:+-p "$PLACE"})"
trap 'rm -rf "$folder"' EXIT
. "$top/bench/program.sh"
program="${PROGRAM:-$(make_program "$top" "$folder")}"
compiler="${COMPILER:-$(make_compiler "$top" "$folder")}"
python3 "$here/soak.py" "$program" "$compiler" "$folder" "$top" "${BUILDS:-300}" "${SEED:-1}"
