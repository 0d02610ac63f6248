#!/bin/sh
# Interesting while the compiler in question needs more than so many seconds of processor time for the file, or doesn't end, but reads it within
# one, and another compiler, or another level, is done within one. Other work on the machine decides nothing.
# The values may come from the environment: the calls in BAD and GOOD, the seconds in SECONDS_OF_TIME.
file=${FILE:-rotate.c} bad=${BAD:-gcc -O2} good=${GOOD:-gcc -O0} seconds=${SECONDS_OF_TIME:-5}
for tool in timeout "$good" "$bad"; do eval "set -- $tool" && command -v "$1" >/dev/null || exit 127; done # 127: the test itself has failed
# shellcheck disable=SC3045 # all shells at hand have ulimit -t
run() { (ulimit -t "$1" && eval "shift 2; timeout $((20 * seconds)) $2 \"\$@\""); }
run 1 "$good -std=c11 -pedantic-errors -Wno-newline-eof" -c "$file" -o quick.o 2>quick.txt || exit 1
run 1 "$bad -std=c11" -fsyntax-only "$file" 2>read.txt || exit 1
run "$seconds" "$bad -std=c11" -c "$file" -o slow.o 2>slow.txt && exit 1
! grep -F -- "$file:" slow.txt | grep -q 'error:' # then it was refused
