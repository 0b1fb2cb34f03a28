#!/usr/bin/env bash
# Builds at the limits, on real files with the small compiler, and measures these builds: a library and 4,095 binaries; a
# chain of 256 packages, several times; a script without declarations beside 100,000 files; a source of 64 MiB. Each is built
# from an empty target folder, with nothing changed, and after an edit. It prints a table row for each build:
#
#   seconds    of the clock; of the processor, for the builder and for its children
#   MB         the builder's greatest resident set
#   started    how many children were started for units, by `--explain`
#
# PROGRAM=FILE and COMPILER=FILE name a `pb_tool` and a `pb_mini` that are made already. ONLY=WORD takes the kinds with this
# word in their names. The status is 0 only if each build ended well and started as many children as it must.
set -euo pipefail
here="$(cd "$(dirname "$0")" && pwd)"
top="$(cd "$here/../.." && pwd)"
folder="$(mktemp -d)"
trap 'rm -rf "$folder"' EXIT
. "$top/bench/program.sh"
program="${PROGRAM:-$(make_program "$top" "$folder")}"
compiler="${COMPILER:-$(make_compiler "$top" "$folder")}"
python3 "$here/sizes.py" "$program" "$compiler" "$folder" "${ONLY:-}" "${ROUNDS:-20}"
