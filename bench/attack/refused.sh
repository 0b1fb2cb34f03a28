#!/usr/bin/env bash
# Reads and writes records of both formats while each allocation is refused in turn: that one alone, and it with all
# that follow. The call must fail with out of memory, or the written text must be the one that was read. It prints how often
# each came. The program is made in a folder of its own. It needs a C compiler and Python. The status is 1 if anything else
# came.
set -euo pipefail
crates="pb_data pb_place_types pb_record"
uses="pb_data pb_record"
here="$(cd "$(dirname "$0")" && pwd)"
. "$(dirname "$0")/../measure/measured.sh"
program > /dev/null < "$here/refused.rattle"
cc -O2 -shared -fPIC -o "$folder/failing.so" "$top/bench/attack/failing.c"
python3 "$here/refused.py" "$folder" "$runs"
