#!/usr/bin/env bash
# Gives each reader every proper prefix of a valid text, texts at and past its limits, and deeply nested texts. It
# compares what comes with what another reader says:
#
#   manifests      Python's tomllib decides whether a prefix is TOML; all others must be `NotToml`. A manifest of 1,048,576
#                  bytes is read in four shapes; with one byte more it is `TooLarge`.
#   sessions       no prefix of a session is a session: status 1 and `error: bad session`
#   directives     each prefix of a script's output, and each line with one byte changed, by the rules written again here
#   dep-info       the same, with a compiler that leaves such a text
#   streams        4,194,304 bytes are accepted, one more is `OutputTooLong`, for dep-info `NoDepInfo`
#   command lines  each prefix of the words, and of the last word: status 0 or 101, or 1 with a reason
#   depth          brackets in manifests, sessions and diagnostics; parts of keys and of paths
#
# In no run may the program end by a signal, hang, or be silent if its status is not 0.
#
# PROGRAM=FILE and COMPILER=FILE name a `pb_tool` and a `pb_mini` that are made already. It prints a line for each kind. The
# status is 0 only if all was well.
set -euo pipefail
here="$(cd "$(dirname "$0")" && pwd)"
top="$(cd "$here/../.." && pwd)"
folder="$(mktemp -d)"
trap 'rm -rf "$folder"' EXIT
. "$top/bench/program.sh"
program="${PROGRAM:-$(make_program "$top" "$folder")}"
compiler="${COMPILER:-$(make_compiler "$top" "$folder")}"
python3 "$here/limits.py" "$program" "$compiler" "$folder" "${ONLY:-}"
