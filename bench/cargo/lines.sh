#!/usr/bin/env bash
# Checks that message lines are as the types of the crate `cargo_metadata` read them: for each reason the fields, the
# kind of each value, and which may be absent.
#
# The table FIELDS describes these types (`Message` of 0.19), so neither network nor crate is needed. It was written from
# knowledge of the crate; no build of that crate was run beside it. Other fields are allowed, as those types allow them, and
# reported. These types read a line of another reason (our own `build-script-note`) as text; such lines are counted.
#
# The lines come from a copy of examples/workspace, built with the real compiler and several sets of options: a clean build,
# the same again, with a warning and with an error in a source. If there is a cargo, its lines are checked too, which tests
# the table itself. PROGRAM=FILE names a program that is made already. The status is 1 if a line does not fit.
set -euo pipefail
here="$(cd "$(dirname "$0")" && pwd)"
top="$(cd "$here/../.." && pwd)"
if ! command -v rustc > /dev/null; then
    echo "There is no rustc on this machine: nothing was built and no line was looked at."
    exit 0
fi
folder="$(mktemp -d)"
trap 'rm -rf "$folder"' EXIT
. "$top/bench/program.sh"
program="${PROGRAM:-$(make_program "$top" "$folder")}"
cp -r "$top/examples/workspace" "$folder/workspace"
python3 "$here/lines.py" "$program" "$folder"
