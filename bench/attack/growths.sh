#!/usr/bin/env bash
# Refuses the builder each allocation in turn, on real files with the small compiler: that allocation alone, and it
# with all that follow. The workspaces are those of three example sessions: `one_library`, `feature_on_two_sides`, and the
# two members of `reuse_edits_of_members`. Each is built into an empty target folder, and after an edit; after the edit also
# with `--explain`.
# `failing.sh` does the same in memory, for all example sessions.
#
# A build whose memory was refused must print one of these:
#
# - the right lines, with status 0, if it can do without that memory
# - the first whole lines, the failing finish line, `note: out of memory` and `error: fault memory OutOfMemory`, with status 101 (or the line that
#   needs no memory, if all allocations that follow are refused too)
# - that note and that error alone, if memory was refused before the first line
#
# With `--explain`, a build that prints a line of a unit must also say how many units it started, or that memory ran out for
# that.
#
# The next build, with memory, must print the lines of a clean build except for `fresh`. The folder of each unit must have
# the files that a clean build leaves. A third build must start nothing.
#
# PROGRAM=FILE and COMPILER=FILE name a `pb_tool` and a `pb_mini` that are made already. EVERY=N tries each Nth allocation,
# WORKERS=N run at a time (4), ONLY=WORD takes the workspaces with this word in their names. It needs a C compiler and
# Python. It prints a table row for each case. The status is 0 only if nothing else came.
set -euo pipefail
here="$(cd "$(dirname "$0")" && pwd)"
top="$(cd "$here/../.." && pwd)"
folder="$(mktemp -d)"
trap 'rm -rf "$folder"' EXIT
. "$top/bench/program.sh"
program="${PROGRAM:-$(make_program "$top" "$folder")}"
compiler="${COMPILER:-$(make_compiler "$top" "$folder")}"
cc -O2 -shared -fPIC -o "$folder/failing.so" "$top/bench/attack/failing.c"
python3 "$here/growths.py" "$program" "$compiler" "$folder" "${EVERY:-1}" "${WORKERS:-4}" "${ONLY:-}"
