#!/usr/bin/env bash
# What one ruling takes: the law rules on FILE, the menus of the passes are made, and nothing is reduced (--limit 0). Each row is the least of five
# runs, in processor seconds, with the peak of memory; beside a lawful program what gcc's sanitizers take to build and run it. By hand only.
# CREDUCE=PROGRAM takes another program than the launcher at the top.
set -u
. "$(dirname "${BASH_SOURCE[0]}")/reductions.sh"
begin_reductions 0

# least CMD..: the least processor seconds of five runs, and the peak of memory of the last one.
least() {
    for _ in 1 2 3 4 5; do
        /usr/bin/time -o spent -f '%U %S %M' "$@" >/dev/null 2>&1
        tail -n 1 spent
    done | awk '{ s = $1 + $2; if (NR == 1 || s < least) least = s; peak = $3 } END { printf "%.2f s, %d MB\n", least, peak / 1024 }'
}

# ruling LABEL FILE WORD..
ruling() {
    local label=$1 file=$2
    shift 2
    echo "$label ($(stat -c %s "$file") bytes): $(least "$program" --limit 0 "$@" has:main "$file")"
}

# functions N: a program of so many functions, each called.
functions() {
    awk -v n="$1" 'BEGIN {
        print "int printf(const char *, ...);"
        for (i = 0; i < n; i++) printf "int f%d(int a) { int b = a; for (int i = 0; i < 5; i++) b = b + i * %d; return b %% 1000; }\n", i, i % 9 + 1
        print "int main(void) {\n  int s = 0;"
        for (i = 0; i < n; i++) printf "  s = s + f%d(s);\n", i
        print "  printf(\"%d\\n\", s % 1000);\n  return 0;\n}"
    }'
}

functions 40 >small.c
functions 400 >large.c
echo '$' >none.c
echo 'int main(void) { unsigned s = 0; for (unsigned i = 0; i < 1000000; i++) s = s + i; return s == 0; }' >steps.c
ruling 'a program of 40 functions, each called' small.c
ruling 'the same with 400' large.c
ruling 'a file that fails at its first token' none.c
ruling 'a loop of 1,000,000 turns of unsigned sums, some 11 million steps' steps.c --steps 100000000
if command -v gcc >/dev/null; then
    for file in small.c large.c; do
        echo "gcc -fsanitize=address,undefined and a run of $file: $(least sh -c "gcc -w -fsanitize=address,undefined $file -o checked && ./checked")"
    done
fi
