#!/usr/bin/env bash
# Builds into target folders that lie: records of other keys and formats, records that are torn or have a byte
# changed, run numbers at their limit, folders in place of files and files in place of folders, links, pipes, names that
# are not UTF-8, files without rights, a full disk. Each folder is made from one that the builder left, from the present
# sources ("now") or from others ("before"). It uses the small compiler on real files.
#
# For each folder it checks:
#
# - The build ends in time. Either the status is 0, with the lines and files of a clean build except for `fresh`. Or it is
#   101, with the first of these lines and a last line `error: fault ..` (`error: bad ..` if a source cannot be read).
# - What is outside the target folder is unchanged, wherever a link leads. Exceptions: the target folder itself is a link,
#   or a record of the older format is one. That record is rewritten where it is.
# - After status 0 the record of each unit is whole (by `records.py`, which reads records by their form alone) and names the
#   numbers of the records of the units that it needs. After a fault each record is whole, belongs to no unit, counts as
#   none, or is the planted one.
# - Once the lie is removed, the next build is as a clean one.
#
# If another program wrote a whole record of the right key, with today's command and inputs, we claim nothing about the
# build. Such folders are marked "free", and the script prints what came.
#
# PROGRAM=FILE and COMPILER=FILE name a `pb_tool` and a `pb_mini` that are made already. TORN=N is the number of places at
# which a record is cut (60), and of changed bytes; TORN=each takes all. SHARE=N takes each Nth folder, ONLY=WORD the kinds
# with this word in their names. Run as root, it also builds as the user nobody, and on a small disk of its own. It prints a
# line for each kind of lie, and for each folder with something wrong. The status is 0 only if nothing was wrong.
set -euo pipefail
here="$(cd "$(dirname "$0")" && pwd)"
top="$(cd "$here/../.." && pwd)"
folder="$(mktemp -d)"
trap 'umount "$folder/small" 2> /dev/null || true; rm -rf "$folder"' EXIT
. "$top/bench/program.sh"
program="${PROGRAM:-$(make_program "$top" "$folder")}"
compiler="${COMPILER:-$(make_compiler "$top" "$folder")}"
python3 "$here/lying.py" "$program" "$compiler" "$folder" "$top" "${TORN:-60}" "${SHARE:-1}" "${ONLY:-}"
