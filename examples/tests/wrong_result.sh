#!/bin/sh
# Interesting while two compilations, as a compiler's two levels, do different things, although a compiler takes the file cleanly and the
# sanitizers see nothing undefined in it.
# The values may come from the environment, or the compilations as two words: ./wrong_result.sh 'gcc -O0' 'gcc -O1'. A compiler that isn't in
# PATH is found from the trial's folder.
file=${FILE:-rotate.c} right=${1:-${RIGHT:-../faulty/wrong-cc -O0}} wrong=${2:-${WRONG:-../faulty/wrong-cc -O2}}
for tool in timeout gcc clang "$right" "$wrong"; do eval "set -- $tool" && command -v "$1" >/dev/null || exit 127; done # 127: the test itself has failed
run() { eval "shift; timeout 20 $1 \"\$@\""; }
ulimit -f 100000 # no output above 50 MB
strict='-std=c11 -pedantic-errors -Wno-newline-eof -Werror=return-type -Werror=sequence-point -Werror=builtin-declaration-mismatch -Werror=format'
run "gcc $strict -O1" -c "$file" -o clean.o || exit 1
run "$right" "$file" -o right && run "$wrong" "$file" -o wrong || exit 1
timeout 5 ./right >right.txt
status=$? && [ $status -lt 124 ] && echo "status $status" >>right.txt || exit 1 # neither a crash nor an endless loop
timeout 5 ./wrong >wrong.txt
echo "status $?" >>wrong.txt && cmp -s right.txt wrong.txt && exit 1 # no difference; a crash or an endless loop is one too
run 'gcc -g -fsanitize=address,undefined -fno-sanitize-recover=all' "$file" -o checked || exit 1
timeout 20 ./checked >checked.txt 2>errors.txt
[ $? = $status ] && [ ! -s errors.txt ] || exit 1
run 'clang -w -fsanitize=memory' "$file" -o read || exit 1
timeout 20 ./read >read.txt 2>errors.txt # says where something is read that was never set
[ $? = $status ] && [ ! -s errors.txt ]
