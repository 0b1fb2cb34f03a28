#!/bin/sh
[ "$1" = -vV ] && { echo 'host: here'; exit; }
while [ $# -gt 0 ]; do
    case $1 in --out-dir) out=$2 ;; --crate-name) name=$2 ;; esac
    shift
done
echo $$ > "$STATE/$name.pid"
[ ! -e "$STATE/slow" ] || sleep 2
: > "$out/lib$name.rlib"
echo "$out/lib$name.rlib:" > "$out/$name.d"
echo "$name" >> "$STATE/written"
