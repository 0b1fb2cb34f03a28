#!/usr/bin/env bash
# Generates workspaces of nested folders, with patterns of `members` and texts of `exclude`. It compares the packages
# that the program builds with cargo's members. Each folder has a manifest, because cargo refuses a pattern that matches a
# folder without one. A workspace that cargo refuses is skipped. A folder below one that `members` writes out and `exclude`
# names may differ (docs/DIFFERENCES.md).
#
#   members.sh FIRST COUNT    the workspaces numbered from FIRST on
#
# PROGRAM=FILE and COMPILER=FILE name a `pb_tool` and a `pb_mini` that are made already. It prints each difference, and the
# counts. The status is 1 if there is a difference.
set -euo pipefail
here="$(cd "$(dirname "$0")" && pwd)"
top="$(cd "$here/../.." && pwd)"
folder="$(mktemp -d)"
trap 'rm -rf "$folder"' EXIT
. "$top/bench/program.sh"
program="${PROGRAM:-$(make_program "$top" "$folder")}"
compiler="${COMPILER:-$(make_compiler "$top" "$folder")}"
python3 "$here/members.py" "$program" "$compiler" "$folder/workspace" "$1" "$2"
