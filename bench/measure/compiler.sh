#!/usr/bin/env bash
# Times the small compiler over texts of 64 KiB to 4 MiB in several shapes: as sources, as files that are included, as
# command lines, and as images that are run. It prints microseconds. If the compiler is linear, four times the bytes take
# about four times as long. The measuring program is made in a folder of its own.
set -euo pipefail
here="$(cd "$(dirname "$0")" && pwd)"
root="$(cd "$here/../.." && pwd)"
work=$(mktemp -d)
trap 'rm -rf "$work"' EXIT
mkdir "$work/crates"
for name in pb_data pb_json pb_place_types pb_mini; do
  cp -r "$root/crates/$name" "$work/crates/$name"
  rm -rf "$work/crates/$name/must-fail"
done
printf 'pb_data: indexmap\npb_json: serde_json\npb_place_types: pb_data thiserror\npb_mini: pb_data pb_json pb_place_types thiserror\nmeasure: pb_data pb_mini pb_place_types\n' > "$work/crates.txt"
mkdir -p "$work/crates/measure/src"
cp "$here/compiler.rattle" "$work/crates/measure/src/main.rt"
cd "$work/crates/measure"
${TRY:-} rt run
