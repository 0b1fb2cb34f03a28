#!/usr/bin/env bash
# Refuses the program each allocation in turn, in each example session: that allocation alone, and it with all that
# follow. It compares what is printed with what may be printed. `failing.c` is a malloc that forks twice at each
# allocation, and refuses it in the copies.
#
# If one allocation is refused, one of these must come:
#
# - the right output, if the program can do without that memory
# - status 0, and one build that fails with `fault memory OutOfMemory`: its first whole message lines, then the failing
#   finish line. All other builds are as they were.
# - status 1, `error: bad session`, and the whole message lines of the first builds: memory was refused outside a build
# - status 101 and `error: fault memory OutOfMemory` alone: it was refused before the command line was read
#
# A build after such a failure starts what the failed one has not. So `fresh` and the keys of `started=` of later builds
# are not compared. Some sessions make children die or calls fail, or let a later build read what an earlier one left.
# There each build must only be answered by message lines and one result line, or the session must be bad.
#
# If all allocations from one on are refused, the output is right, or the status is 1 with `error: bad session`: result
# lines take memory. Then the message lines of the first builds come, and of some builds after them the failing finish
# line.
#
# Each example also runs once with its output into a full device: status 1 and `error: bad session`.
#
# PROGRAM=FILE names a program that is made already. EVERY=N tries each Nth allocation, WORKERS=N sessions run at a time
# (4). The status is 1 if anything else came.
set -euo pipefail
here="$(cd "$(dirname "$0")" && pwd)"
top="$(cd "$here/../.." && pwd)"
folder="$(mktemp -d)"
trap 'rm -rf "$folder"' EXIT
. "$top/bench/program.sh"
program="${PROGRAM:-$(make_program "$top" "$folder")}"
cc -O2 -shared -fPIC -o "$folder/failing.so" "$top/bench/attack/failing.c"
python3 "$here/failing.py" "$program" "$folder" "$top/crates/pb_examples" "${EVERY:-1}" "${WORKERS:-4}"
