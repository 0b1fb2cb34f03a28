#!/usr/bin/env bash
# Builds with a compile cache as the compiler, and prints the table of docs/CACHE.md: seconds of the clock, and the
# cache's hits and misses.
#
# The cache is sccache, by examples/rustc-sccache. If it is absent, it is installed from Debian's packages, which takes root.
# Its store is in a folder of its own. The workspace has PACKAGES packages (60), each with a library of FUNCTIONS generic
# functions (150). Each tenth also has a binary, and each tenth a build script.
#
# PROGRAM=FILE names a `pb_tool` that is made already. The status is 1 if a build fails, if a build after hits starts
# something, or if a build with the cache prints other message lines than one without it.
set -euo pipefail
here="$(cd "$(dirname "$0")" && pwd)"
top="$(cd "$here/../.." && pwd)"
folder="$(mktemp -d)"
export SCCACHE_DIR="$folder/store" SCCACHE_IDLE_TIMEOUT=0 SCCACHE_SERVER_PORT="${SCCACHE_SERVER_PORT:-4227}"
trap 'sccache --stop-server >/dev/null 2>&1 || true; rm -rf "$folder"' EXIT
command -v sccache >/dev/null || { apt-get update -qq && apt-get install -qq -y sccache >/dev/null; }
. "$top/bench/program.sh"
program="${PROGRAM:-$(make_program "$top" "$folder")}"
python3 "$here/cache.py" "$program" "$folder" "$top" "${PACKAGES:-60}" "${FUNCTIONS:-150}"
