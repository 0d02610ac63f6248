#!/bin/sh
# Interesting while one compiler's assembly text has the instruction, and that of the one in question doesn't.
# The values may come from the environment: the calls in GOOD and BAD, a part of the text in TEXT.
file=${FILE:-rotate.c} good=${GOOD:-gcc -O2} bad=${BAD:-../faulty/slow-cc -O2} text=${TEXT:-	roll	}
for tool in timeout "$good" "$bad"; do eval "set -- $tool" && command -v "$1" >/dev/null || exit 127; done # 127: the test itself has failed
run() { eval "shift; timeout 20 $1 \"\$@\""; }
has() { case $(cat "$1") in *"$2"*) ;; *) return 1 ;; esac; }
run "$good -std=c11 -pedantic-errors -Wno-newline-eof" -S "$file" -o good.s && has good.s "$text" || exit 1
run "$bad -std=c11" -S "$file" -o bad.s || exit 1
! has bad.s "$text"
