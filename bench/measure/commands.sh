#!/usr/bin/env bash
# Measures `command` and `answered` over workspaces in memory, with n packages, binaries or files.
#
#   command      the command of a library that depends on n packages, for the target and for the host, all with scripts that
#                print some lines
#   binaries     the commands of all units of a package with n binaries
#   answered     the judgement of an answer whose dep-info names n files, and a fourth of them once more in the folder of the
#                last unit that is reached; the library depends on 240 packages
#
# It prints a line for each size, with the number of words or inputs, and the exponents. The aim: time grows as the words,
# and for an answer as the files, at most times the 1,442 units that are reached. `measured.sh` says what is measured.
set -euo pipefail
crates="pb_data pb_directive pb_graph pb_manifest_types pb_place_types pb_workspace_types pb_feature_types pb_record pb_profile pb_unit pb_command_types pb_command_arguments pb_command_environment pb_command_reply pb_command pb_feature pb_manifest pb_place pb_workspace_package pb_workspace"
uses="pb_command pb_command_types pb_data pb_directive pb_feature pb_place pb_place_types pb_unit pb_workspace pb_workspace_types"
here="$(cd "$(dirname "$0")" && pwd)"
. "$(dirname "$0")/measured.sh"
program < "$here/commands.rattle"
measured command 60 120 240
measured binaries 1000 2000 4000
measured answered 1000 4000 16000
