#!/usr/bin/env bash
# Times the two readers of `pb_directive` over texts of 64 KiB to 4 MiB in several shapes, and prints microseconds. If a
# reader is linear, four times the bytes take about four times as long. The measuring program is made in a folder of its own.
set -euo pipefail
here="$(cd "$(dirname "$0")" && pwd)"
root="$(cd "$here/../.." && pwd)"
work=$(mktemp -d)
trap 'rm -rf "$work"' EXIT
mkdir "$work/crates"
for name in pb_data pb_directive; do
  cp -r "$root/crates/$name" "$work/crates/$name"
  rm -rf "$work/crates/$name/must-fail"
done
printf 'pb_data: indexmap\npb_directive: indexmap pb_data thiserror\nmeasure: pb_data pb_directive\n' > "$work/crates.txt"
mkdir -p "$work/crates/measure/src"
cp "$here/directives.rattle" "$work/crates/measure/src/main.rt"
cd "$work/crates/measure"
rt run
