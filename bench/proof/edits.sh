#!/usr/bin/env bash
# Tries the mutants of `bench/edits/CRATE/`, which the gate leaves out because each costs a good part of a check.
#
#   edits.sh [CRATE..]            tries those of these crates, or of all
#   edits.sh --texts [CRATE..]    proves nothing: checks that each text to replace, of `must-fail/` too, is once in its file
#   edits.sh --aged               names the crates whose code, definitions or mutants changed since their row was written;
#                                 comments, imports and visibility do not count
#
# It works in a copy of the repository. The checker must refuse each mutant. There is a line for each; the crate's row in
# `bench/edits/LAST.md` has the date, the commit and the result. The last line names the crates in which a mutant was let
# through, and then the status is 1. TRY=COMMAND runs `rt` under a command, RT_JOBS is the number of processors.
#
# A run that was stopped goes on with TRIED=FILE, its output so far: what that reports as refused, over the same text, is not
# tried again. Parts of a crate can run side by side, each in a checkout of its own: PART=2/3 tries every third from the
# second on, and writes no row. A last run with TRIED="FILE FILE .." writes it.
#
# Mutants of bodies are tried together, as many as change no function twice: the checker judges each function by its own body
# and by the contracts of what it calls. A mutant is refused if the checker refuses the function that it changes, for another
# reason than a callee that is not proved. In that case the next round judges it, without the refused ones. What is left, and
# each mutant of more than bodies, is tried alone, by `rt must-fail`.
#
# A mutant is a file `NAME.edit`: a line `file: src/lib.rt`, then pairs of lines `old: TEXT` and `new: TEXT`.
set -euo pipefail
exec python3 "$(dirname "$0")/edits.py" "$@"
