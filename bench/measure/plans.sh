#!/usr/bin/env bash
# Measures `Plan::plan` over workspaces in memory.
#
#   chain        n packages, each needing the next as a dependency and as a build dependency, all with scripts
#   binaries     one package with n binaries
#   both         such a chain of 256 whose first package has n binaries: each of them reaches the whole chain
#
# It prints a line for each size, with the number of indices that the plan keeps, of what each unit needs and reaches. Time
# and memory may grow as these. `measured.sh` says what is measured.
set -euo pipefail
crates="pb_data pb_graph pb_manifest_types pb_place_types pb_workspace_types pb_feature_types pb_feature pb_manifest pb_place pb_profile pb_unit pb_workspace_package pb_workspace"
uses="pb_data pb_feature pb_place pb_place_types pb_unit pb_workspace pb_workspace_types"
here="$(cd "$(dirname "$0")" && pwd)"
. "$(dirname "$0")/measured.sh"
program < "$here/plans.rattle"
measured chain 64 128 256
measured binaries 1023 2047 4093
measured both 640 1280 2560
