#!/bin/sh
# Interesting while the compiler in question refuses the file with its own message, and two others make a program of it, pedantically. What is
# tried breaks no constraint of C11, so there is no test for a compiler that takes what it should refuse.
# The values may come from the environment: the call in BAD, a part of its message in MESSAGE, the others in GOOD and OTHER.
file=${FILE:-rotate.c} bad=${BAD:-pcc} message=${MESSAGE:-error} good=${GOOD:-gcc} other=${OTHER:-clang}
for tool in timeout "$good" "$other" "$bad"; do eval "set -- $tool" && command -v "$1" >/dev/null || exit 127; done # 127: the test itself has failed
run() { eval "shift; timeout 20 $1 \"\$@\""; }
has() { case $(cat "$1") in *"$2"*) ;; *) return 1 ;; esac; }
strict='-std=c11 -pedantic-errors -Wno-newline-eof'
run "$bad" -c "$file" -o bad.o >bad.txt 2>&1 && exit 1
has bad.txt "$message" || exit 1
run "$good $strict" "$file" -o good 2>good.txt && run "$other $strict" "$file" -o other 2>other.txt
