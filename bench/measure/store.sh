#!/usr/bin/env bash
# Measures calls of a `Store` over files in memory.
#
#   open         `Store::open` on a folder with n records
#   needs        `compare` of an unchanged unit that needs n units, whose numbers the store has
#   file         `compare` of an unchanged unit with one declared file of n MiB
#   files        `compare` of an unchanged unit with n declared files of 16 KiB
#   folder       `compare` of an unchanged unit with a declared folder of n files of 16 KiB
#   keep         `keep` of a unit with n declared files of 16 KiB
#
# It prints a line for each size, with how many records, files or MiB were read, or 0 if the answer is not the expected one.
# Time and instructions may grow as these: 4,096 files are 64 MiB of inputs. Memory shows only if a call takes more than its
# preparation: `keep` has all inputs and the text of the record. `measured.sh` says what is measured.
#
# On a busy machine, instructions grew with exponents of 1.00 to 1.05 in each shape. A record of 64 MiB took 116 million of
# them to keep, and 202 MB of memory: the values, the record's text, and the file in memory. Comparing that unit took 84
# million.
set -euo pipefail
crates="pb_data pb_directive pb_graph pb_manifest_types pb_place_types pb_workspace_types pb_feature_types pb_record pb_profile pb_unit pb_command_types pb_feature pb_place pb_store_soundness pb_store"
uses="pb_command_types pb_data pb_place pb_place_types pb_record pb_store pb_store_soundness"
here="$(cd "$(dirname "$0")" && pwd)"
. "$(dirname "$0")/measured.sh"
program < "$here/store.rattle"
measured open 1024 2048 4096
measured needs 1024 2048 4096
measured file 16 32 64
measured files 1024 2048 4096
measured folder 1024 2048 4096
measured keep 1024 2048 4096
