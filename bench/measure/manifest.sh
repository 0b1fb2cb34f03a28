#!/usr/bin/env bash
# Times `read_manifest` beside `toml::table_from_str`, on manifests of about 1 MiB, in one run. It makes a small program
# over copies of the crates, in a folder of its own. It prints a line for each manifest: its kind, its bytes, both times (the
# least of fifteen, in microseconds of processor time) and their quotient.
set -euo pipefail
here="$(cd "$(dirname "$0")" && pwd)"
top="$(cd "$here/../.." && pwd)"
folder="$(mktemp -d)"
trap 'rm -rf "$folder"' EXIT
mkdir -p "$folder/crates/bench_manifest/src" "$folder/data"
cp -r "$top/crates/pb_data" "$top/crates/pb_manifest_types" "$top/crates/pb_manifest" "$folder/crates/"
cp "$here/manifest_crates.txt" "$folder/crates.txt"
cp "$here/manifest.rattle" "$folder/crates/bench_manifest/src/main.rt"
head='[package]\nname = "a"\n'
{ printf "$head"; echo '[features]'; awk 'BEGIN { for (size = 60; size < 1048000; size += length(line) + 1) { n++; line = "f" n " = [\"f" n + 1 "\", \"dep:d" n "\", \"d/f" n "\"]"; print line } }'; } > "$folder/data/features"
{ printf "$head"; echo '[features]'; printf 'f = ['; awk 'BEGIN { for (size = 60; size < 1048000; size += length(line)) { n++; line = "\"f" n "\","; printf "%s", line } }'; echo ']'; } > "$folder/data/one_feature"
{ printf "$head"; echo '[dependencies]'; awk 'BEGIN { for (size = 60; size < 1048000; size += length(line) + 1) { n++; line = "d" n " = { path = \"d" n "\", version = \"1." n "\", features = [\"f\"] }"; print line } }'; } > "$folder/data/dependencies"
{ printf "$head"; awk 'BEGIN { for (size = 60; size < 1048000; size += length(line) + 1) { n++; line = "[[bin]]\nname = \"b" n "\"\npath = \"b" n ".rs\""; print line } }'; } > "$folder/data/binaries"
{ printf "$head"; awk 'BEGIN { for (size = 60; size < 1048000; size += length(line) + 1) { n++; line = "[profile.p" n "]\ninherits = \"dev\"\nopt-level = 2"; print line } }'; } > "$folder/data/profiles"
{ printf "$head"; awk 'BEGIN { for (size = 60; size < 1048000; size += length(line) + 1) { n++; line = "unknown" n " = " n; print line } }'; } > "$folder/data/unknown_keys"
{ printf "$head"; echo '[workspace]'; printf 'members = ['; awk 'BEGIN { for (size = 60; size < 1048000; size += length(line)) { n++; line = "\"m" n "\","; printf "%s", line } }'; echo ']'; } > "$folder/data/members"
{ printf "$head"; printf 'description = "'; awk 'BEGIN { for (n = 0; n < 1048000; n++) printf "d"; print "\"" }'; } > "$folder/data/one_text"
cd "$folder"
git init -q .
cd "$folder/crates/bench_manifest"
rt run > "$folder/built" 2>&1 || { cat "$folder/built"; exit 1; }
cd "$folder/data"
printf '%-14s %9s %12s %15s %9s\n' manifest bytes toml read_manifest quotient
"$folder/crates/bench_manifest/out/bench_manifest" features one_feature dependencies binaries profiles unknown_keys members one_text |
    awk '{ printf "%-14s %9d %12d %15d %9.2f\n", $1, $2, $3, $4, $4 / $3 }'
