#!/usr/bin/env bash
# Measures `resolve` over workspaces in memory, with all features of the first package requested.
#
#   packages     n packages, each of which depends on the next in three entries, with 100 features of every form
#   features     two packages, the first with n features of every form
#   entries      two packages, the first with n optional entries, each with a feature that lists it
#
# It prints a line for each size, with the number of features that are on, and the exponents. `measured.sh` says what is
# measured.
set -euo pipefail
crates="pb_data pb_graph pb_manifest_types pb_place_types pb_workspace_types pb_feature_types pb_feature pb_manifest pb_place pb_workspace_package pb_workspace"
uses="pb_data pb_feature pb_place pb_place_types pb_workspace pb_workspace_types"
here="$(cd "$(dirname "$0")" && pwd)"
. "$(dirname "$0")/measured.sh"
program < "$here/features.rattle"
measured packages 64 128 256
measured features 2500 5000 10000
measured entries 2000 4000 8000
