#!/usr/bin/env bash
# Measures `load` over workspaces in memory, and beside it the manifest reader over the same manifests.
#
#   members      n members, each with 200 features, each of which depends on the one before it
#   read         the same manifests, one by one, by the manifest reader
#   files        256 members, and n files beside the sources, below a glob
#   inherited    one member that inherits n entries from its workspace
#   optional     one package with n optional entries, each with a feature that lists it
#
# It prints a line for each size, and the exponents. `measured.sh` says what is measured.
set -euo pipefail
crates="pb_data pb_graph pb_manifest_types pb_manifest pb_place_types pb_place pb_workspace_types pb_workspace_package pb_workspace"
uses="pb_data pb_manifest pb_place pb_place_types pb_workspace"
here="$(cd "$(dirname "$0")" && pwd)"
. "$(dirname "$0")/measured.sh"
program < "$here/workspaces.rattle"
measured read 64 128 256
measured members 64 128 256
measured files 10000 20000 40000
measured inherited 1000 2000 4000
measured optional 1000 2000 4000
