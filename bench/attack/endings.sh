#!/usr/bin/env bash
# Shows what is left of a build that is ended from outside while two compilers are at work. For each way to end it,
# there is a line:
#
#   status      how the builder ended: its status, or 128 and the signal's number
#   children    how many of the two compilers are still running
#   written     how many of them have written their library when all have ended
#   records     how many records exist then
#   again       how many units the next build starts
#   next        `same` if that build prints what a clean build prints, except for `fresh`
#
# The ways: the terminal's interrupt, hang-up and quit, which go to the builder and all its children; TERM and KILL, to the
# builder alone and to all; and an output that is closed, so that the builder's sink fails. The compiler is a shell script
# that takes two seconds.
#
# What it found: a signal to the group ends all, and nothing is written afterwards. A builder that is ended alone leaves
# its compilers running. They write their libraries, for which there is no record, so the next build makes these again. A
# build that begins before they have ended may be disturbed by them. If the output is closed, the builder waits for both
# compilers. The unit whose lines it could not write has its record.
#
# PROGRAM=FILE names a `pb_tool` that is made already.
set -euo pipefail
here="$(cd "$(dirname "${BASH_SOURCE[0]}")" && pwd)"
top="$(cd "$here/../.." && pwd)"
folder="$(mktemp -d)"
trap 'rm -rf "$folder"' EXIT
. "$top/bench/program.sh"
program="${PROGRAM:-$(make_program "$top" "$folder")}"

cp "$here/endings_compiler.sh" "$folder/compiler"
chmod 755 "$folder/compiler"
export STATE="$folder/state" RUSTC="$folder/compiler"

# A workspace of two members, with nothing built.
workspace() {
    local name
    rm -rf "$folder/w" "$STATE"
    mkdir -p "$STATE"
    for name in a b; do
        mkdir -p "$folder/w/$name/src"
        printf '[package]\nname = "%s"\nversion = "0.1.0"\nedition = "2021"\n' "$name" > "$folder/w/$name/Cargo.toml"
        : > "$folder/w/$name/src/lib.rs"
    done
    printf '[workspace]\nmembers = ["a", "b"]\nresolver = "2"\n' > "$folder/w/Cargo.toml"
}

build() { "$program" build --manifest-path "$folder/w/Cargo.toml" --jobs 2; }

# How many of the compilers are at work. One that has ended and that nobody has asked for its status is not.
living() {
    local count=0 at
    for at in "$STATE"/*.pid; do
        case "$(ps -o stat= -p "$(cat "$at")" 2> /dev/null)" in '' | Z*) ;; *) count=$((count + 1)) ;; esac
    done
    echo "$count"
}

# Waits until both compilers are at work.
until_both() {
    for _ in $(seq 100); do
        [ -s "$STATE/a.pid" ] && [ -s "$STATE/b.pid" ] && return
        sleep 0.05
    done
    echo "the compilers were not started" >&2
    exit 1
}

workspace
build > "$folder/nothing"

printf '%-24s %6s %8s %7s %7s %5s %4s\n' way status children written records again next
# `ended WAY SIGNAL TO`: TO is `group`, `builder`, or `output`, which is closed in place of a signal. The builder leads a
# group of its own, with the signals as a terminal gives them.
ended() {
    local way="$1" signal="$2" to="$3" pid status=0 children written=0 records next=another
    workspace
    : > "$STATE/slow"
    local start='echo $$ > "$STATE/builder"; exec env --default-signal "$0" build --manifest-path "$1" --jobs 2'
    if [ "$to" = output ]; then
        setsid bash -c "$start" "$program" "$folder/w/Cargo.toml" > >(exec true) 2> /dev/null &
    else
        setsid bash -c "$start" "$program" "$folder/w/Cargo.toml" > /dev/null 2>&1 &
    fi
    pid=$!
    until_both
    case $to in
        group) kill -"$signal" -- -"$(cat "$STATE/builder")" ;;
        builder) kill -"$signal" "$(cat "$STATE/builder")" ;;
    esac
    wait "$pid" 2> /dev/null || status=$?
    sleep 0.3
    children=$(living)
    for _ in $(seq 100); do [ "$(living)" = 0 ] && break; sleep 0.1; done
    [ ! -e "$STATE/written" ] || written=$(wc -l < "$STATE/written")
    records=$(find "$folder/w/target" -name '*.record' | wc -l)
    rm "$STATE/slow"
    : > "$STATE/written"
    build > "$folder/again" || true
    sed -i 's/"fresh":true/"fresh":false/' "$folder/again"
    ! cmp -s "$folder/nothing" "$folder/again" || next=same
    printf '%-24s %6s %8s %7s %7s %5s %4s\n' "$way" "$status" "$children" "$written" "$records" "$(wc -l < "$STATE/written")" "$next"
}

ended 'interrupt, to all' INT group
ended 'end of terminal, to all' HUP group
ended 'quit, to all' QUIT group
ended 'TERM, to all' TERM group
ended 'KILL, to all' KILL group
ended 'TERM, to the builder' TERM builder
ended 'KILL, to the builder' KILL builder
ended 'a closed output' '' output
