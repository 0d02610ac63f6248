#!/bin/sh
# Interesting while a compiler ends with its own message of a crash, in a file of which another compiler makes a program.
# The values may come from the environment: the crashing call in BAD, the other one in GOOD, a part of the message in MESSAGE.
file=${FILE:-rotate.c} good=${GOOD:-gcc} bad=${BAD:-../faulty/crashing-cc -O2} message=${MESSAGE:-internal compiler error: in expand_switch}
for tool in timeout "$good" "$bad"; do eval "set -- $tool" && command -v "$1" >/dev/null || exit 127; done # 127: the test itself has failed
run() { eval "shift; timeout 20 $1 \"\$@\""; }
has() { case $(cat "$1") in *"$2"*) ;; *) return 1 ;; esac; }
run "$good -std=c11 -pedantic-errors -Wno-newline-eof" "$file" -o other || exit 1
run "$bad" -c "$file" -o crash.o 2>crash.txt && exit 1 # without the message of the fault any other crash would do
has crash.txt "$message"
