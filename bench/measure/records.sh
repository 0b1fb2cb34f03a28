#!/usr/bin/env bash
# Measures the reader and the writer of `pb_record` over records of 64 KiB to 64 MiB in six shapes: one large file, many
# small files, many words, many needed units, one long stream, and copies of files (format 1).
#
# For each shape and size it prints: KiB of the record; of reading and of writing the least of five calls, in microseconds of
# processor time and in nanoseconds a byte; the instructions of a call, by valgrind; and the memory of a program that reads
# the text, drops it and writes the record again, as a multiple of the record's size. Then the exponents of the last two
# sizes, by instructions. The aims: all calls are linear; one large file takes at most 3 nanoseconds a byte either way, and
# twice its size.
#
# On a busy machine all exponents were 1.00. At 64 MiB one large file took 0.63 nanoseconds a byte to read, 0.69 to write,
# and 2.02 times its size, and so did a long stream. Many small parts took 3.2 to 5.7 to read, 1.2 to 2.5 to write, and 3.3
# (words, needed units), 3.8 (files) and 6.6 (copies) times their size, because each small text is an allocation.
#
# SIZES names other sizes, in KiB; with 65536 the script takes half an hour, mostly in valgrind. Python makes the records,
# each in a file. If a record does not read, or is written otherwise, the script ends with an error.
set -euo pipefail
crates="pb_data pb_place_types pb_record"
uses="pb_data pb_record"
here="$(cd "$(dirname "$0")" && pwd)"
. "$(dirname "$0")/measured.sh"
program < "$here/records.rattle"
sizes="${SIZES:-64 1024 16384 65536}"
python3 "$here/record_shapes.py" "$folder" $sizes
printf '%8s %6s %9s %6s %9s %6s %13s %13s %6s\n' shape KiB read ns/B written ns/B read written memory
cd "$folder"
for shape in file files words needs streams copies; do
    for size in $sizes; do
        at="$shape.$size"
        [ "$("$runs" same "$at" 0)" = true ] || { echo "$at is not written as it is read" >&2; exit 1; }
        echo "$shape $size $(stat -c %s "$at") $("$runs" read "$at" 5) $("$runs" write "$at" 5)" \
            "$(($(instructions read "$at" 1) - $(instructions read "$at" 0)))" \
            "$(($(instructions write "$at" 1) - $(instructions write "$at" 0)))" \
            "$(memory write "$at" 1)"
    done | awk '
        { printf "%8s %6d %9d %6.2f %9d %6.2f %13.0f %13.0f %6.2f\n", $1, $2, $4, $4 * 1000 / $3, $5, $5 * 1000 / $3, $6, $7, $8 * 1024 / $3 }
        { for (i = 1; i <= 8; i++) { old[i] = now[i]; now[i] = $i } }
        END {
            by = log(now[3] / old[3])
            printf "%8s exponents by instructions: read %.2f, written %.2f\n", $1, log(now[6] / old[6]) / by, log(now[7] / old[7]) / by
        }'
done
