#!/bin/sh
# Interesting while one compiler gives its warning, in a file of which it makes a program, the one in question makes an object of it without the
# warning, and neither gives one whose name FILE hasn't.
# The values may come from the environment: the calls in GOOD and BAD, the warning of the first in LOUD, a pattern of what the other doesn't say
# in QUIET, the names that FILE has in KNOWN.
file=${FILE:-rotate.c} good=${GOOD:-gcc} loud=${LOUD:--Wparentheses} bad=${BAD:-../faulty/quiet-cc -Wparentheses} quiet=${QUIET:-parentheses} known=${KNOWN:-}
for tool in timeout "$good" "$bad"; do eval "set -- $tool" && command -v "$1" >/dev/null || exit 127; done # 127: the test itself has failed
run() { eval "shift; timeout 20 $1 \"\$@\""; }
strict='-std=c11 -pedantic-errors -Wno-newline-eof'
run "$good $strict" "$loud" "$file" -o loud 2>loud.txt && grep -qF -- "[$loud]" loud.txt || exit 1
run "$bad $strict" -c "$file" -o quiet.o 2>quiet.txt || exit 1 # an object, since many warnings come of optimisation
grep -q -- "$quiet" quiet.txt && exit 1
cat loud.txt quiet.txt >names.txt
! grep -o '\[-W[^]]*\]' names.txt | grep -qvxF -- "$(echo "[$loud] $known" | tr ' ' '\n')"
