#!/usr/bin/env bash
# Builds a copy of examples/workspace with the real compiler, runs its binary, and compares its output with
# almanac.txt. If there is a cargo, it builds the copy too, with several sets of options. The script compares targets,
# features, profiles, outputs of scripts and diagnostics, and prints the times of both in seconds, of the clock and of the
# processor.
#
# Then it edits the copy, one thing after another: sources, files that a script names, variables, features, keys of profiles
# and manifests, binaries, members. Both build after each edit. They must report the same, and build the same units again:
# for cargo those whose artifact is not fresh and the scripts that it runs; for pb_tool those whose record was rewritten. If
# the rules of the two want different units, the list WANTED has the units and a reason, and exactly these must differ.
#
# PROGRAM=FILE names a program that is made already. PARTS=edits or PARTS=options takes one part alone. The status is 0 only
# if all is so. Without a rustc nothing is built, and the script says so.
set -euo pipefail
here="$(cd "$(dirname "$0")" && pwd)"
top="$(cd "$here/../.." && pwd)"
if ! command -v rustc > /dev/null; then
    echo "There is no rustc on this machine: nothing was built and nothing was compared."
    exit 0
fi
folder="$(mktemp -d)"
trap 'rm -rf "$folder"' EXIT
. "$top/bench/program.sh"
program="${PROGRAM:-$(make_program "$top" "$folder")}"
cp -r "$top/examples/workspace" "$folder/workspace"
python3 "$here/rustc.py" "$program" "$folder" "${PARTS:-options edits}"
