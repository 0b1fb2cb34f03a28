#!/usr/bin/env bash
# Builds generated workspaces with `pb_tool build` and `cargo build`, both with the same rustc, and compares them.
#
# A workspace has two to seven packages with features, renamed and optional dependencies, build scripts, inherited keys and
# entries, sources in other places, profiles and overrides, some with `RUSTFLAGS`. Each is built with generated options, then
# edited and built again, several times. Both builders must end in the same way, report the same artifacts (package, target,
# features, settings, executable or not), and build the same units again.
#
# Build scripts print what variables say about package, features, metadata, level, profile and platform. Each binary with a
# name of its own is run. It prints what its compile saw, its features and those of its libraries. All that must be the same.
# `cargo` gets its own target as `--target`, so that it shares nothing between host and target.
#
# `random.sh [FIRST [LAST]]` takes the workspaces of these numbers (1 to 40). A number always makes the same workspace.
# PROGRAM=FILE names a program that is made already. KEEP=1 keeps the folder of a workspace that differs. The status is 1 if
# one differs. Without a rustc or a cargo nothing is compared, and the script says so.
set -euo pipefail
here="$(cd "$(dirname "$0")" && pwd)"
top="$(cd "$here/../.." && pwd)"
if ! command -v rustc > /dev/null || ! command -v cargo > /dev/null; then
    echo "There is no rustc or no cargo on this machine: nothing was compared."
    exit 0
fi
folder="$(mktemp -d)"
trap 'rm -rf "$folder"' EXIT
. "$top/bench/program.sh"
program="${PROGRAM:-$(make_program "$top" "$folder")}"
python3 "$here/random.py" "$program" "$folder" "${1:-1}" "${2:-40}"
