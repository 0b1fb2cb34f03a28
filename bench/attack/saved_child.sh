#!/bin/sh
[ "$1" = -vV ] && exec "$COMPILER" -vV
"$COMPILER" "$@" || exit $?
case "$* ${OUT_DIR:-}" in *"$UNIT"*) [ -e "$ACT" ] && { mv "$ACT" "$ACT.done"; sleep 0.05; . "$ACT.done"; } ;; esac
exit 0
