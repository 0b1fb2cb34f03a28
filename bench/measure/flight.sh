#!/usr/bin/env bash
# Measures the calls of a `Flight` over a whole build: at each step `ready`, then `begin` or `answer`, then `emit`.
#
#   side         n units that need nothing, one in flight at a time: each list that is returned has all that are left
#   crowd        the same units, all begun before the first answers
#   chain        n packages, each needing the next, on both sides and with scripts: six units a package
#   wait         a row of 256 units, each needing the one before, and then units that need all 256; n in all
#
# It prints a line for each size, with the length of all lists of `ready` together. Time may grow as the steps and these
# lengths. The aims: 200 milliseconds for 4,096 units side by side, and 20 for a chain of 256. `measured.sh` says what is
# measured.
set -euo pipefail
crates="pb_data pb_run_flight"
uses="pb_data pb_run_flight"
here="$(cd "$(dirname "$0")" && pwd)"
. "$(dirname "$0")/measured.sh"
program < "$here/flight.rattle"
measured side 1024 2048 4096
measured crowd 1024 2048 4096
measured chain 64 128 256
measured wait 1024 2048 4096
