#!/usr/bin/env bash
# Runs generated sessions over the whole language of sessions, and compares each build with the same clean build.
#
# A session has a workspace of up to eight packages: libraries, binaries, build scripts, links, features on two sides,
# inherited keys, profiles. Then come edits of every kind, builds with other options, picks and jobs, `die` and `fuse`.
#
#   lines      a build without a fault has the message lines of the clean build except for `fresh`, and its result except for
#              what was started
#   prefix     a build with a fault has the first of these lines, and then the failing finish line
#   files      each folder of a reported unit contains what the same build makes after its target folder was removed (another
#              package's script names these folders as inputs, and must start no child)
#   nothing    if nothing that counts has changed since a success, a build starts no child, with any jobs and pick
#   fresh      the units whose lines have `"fresh":false` are those that were started
#
# SESSIONS=N is their number (10,000), SEED=N the first one's (1), WORKERS=N run at a time (2). ONLY=N shows session N and
# what is wrong with it. PACKAGES=30 makes workspaces of nine to thirty packages. PROGRAM=FILE names a program that is made
# already. It prints what was run and how often. A session with something wrong is made small first: steps, then lines of
# files, are left out while it stays wrong. The status is 1 if there is one.
set -euo pipefail
here="$(cd "$(dirname "$0")" && pwd)"
top="$(cd "$here/../.." && pwd)"
folder="$(mktemp -d)"
trap 'rm -rf "$folder"' EXIT
. "$top/bench/program.sh"
program="${PROGRAM:-$(make_program "$top" "$folder")}"
python3 "$here/turns.py" "$program" "$folder" "$top" "${SESSIONS:-10000}" "${SEED:-1}" "${WORKERS:-2}" "${ONLY:-}"
