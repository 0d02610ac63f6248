#!/usr/bin/env bash
# What workers are worth where the test says yes often, and where it says it seldom.
# By hand only, on a quiet machine: bench/workers_worth.sh [SECONDS] [LIMIT]. Reductions of a generated program, up to a turn (2500), by tests
# that sleep (0.2 seconds), want each function to stay, and say yes to so many in a hundred of the rest, by the bytes' checksum: by one
# worker, by 8 without --standing, and by 2, 4, 8, 16 and 32 standing ones. A row has the share of yes that one worker met, and for each
# number of workers the seconds, the tests begun, and how many times as fast it is; each must leave the same file and log as one worker.
# Where `cvise` and `creduce` of their packages are installed, they take the same file and test with 1 and 8 processes (CVISE=PROGRAM,
# CREDUCE_PERL=PROGRAM). CREDUCE=PROGRAM takes another program than the launcher at the top, EPOCHS="2 8" and WORKERS="1 8" other numbers of
# workers, RATES="96 16" other rates.
set -u
here=$(cd "$(dirname "${BASH_SOURCE[0]}")" && pwd)
. "$here/reductions.sh"
begin_reductions "${1:-0.2}"
limit=${2:-2500}
text_of 7 40 whole.c
grep -oE '^[a-z][a-z 0-9_]*[ *](f[0-9]+)\(' whole.c | grep -oE 'f[0-9]+\(' | sort -u >functions.txt
[ -s functions.txt ] || { echo "gen:7:40 has no functions"; exit 1; }

# rated RATE: a test that says yes to so many in a hundred of the files that have each function.
rated() {
    cat >rated.sh <<SH
#!/bin/sh
echo x >>"$folder/begun.txt"
sleep $seconds
while read -r name; do grep -qF "\$name" f.c || exit 1; done <"$folder/functions.txt"
cmp -s f.c "$folder/whole.c" && exit 0
set -- \$(cksum <f.c)
[ \$((\$1 % 100)) -lt $1 ] || exit 1
echo x >>"$folder/yes.txt"
SH
    chmod +x rated.sh
}

# reduced_in PLACE WORDS..: a reduction in a folder of this name; sets spent (in ms), begun and yes.
reduced_in() {
    local place=$1 from
    shift
    rm -rf "$place" && mkdir "$place" && cp whole.c "$place/f.c" && cd "$place" || exit 1
    : >"$folder/begun.txt"
    : >"$folder/yes.txt"
    from=$(date +%s%N)
    "$@" >said 2>&1
    spent=$((($(date +%s%N) - from) / 1000000))
    begun=$(wc -l <"$folder/begun.txt")
    yes=$(wc -l <"$folder/yes.txt")
    cd ..
}

# shown WHAT: how it compares with one worker, which took this long.
shown() {
    awk -v what="$1" -v ms="$spent" -v one="$alone" -v begun="$begun" 'BEGIN { printf "  %-14s %7.1f s %5d tests %5.2f times\n", what, ms / 1000, begun, one / (ms ? ms : 1) }'
}

# alike WHO: says where their file or log isn't that of one worker.
alike() { cmp -s one/f.c more/f.c && cmp -s one/f.c.log more/f.c.log || echo "  with $1 it came out otherwise"; }

for rate in ${RATES:-100 96 80 40 16 4}; do
    rated "$rate"
    reduced_in one "$program" --workers 1 --limit "$limit" "$folder/rated.sh" f.c
    alone=$spent
    echo "$rate in a hundred, $((100 * yes / (begun ? begun : 1))) % of all answers yes"
    shown "1 worker"
    for workers in ${EPOCHS:-8}; do
        reduced_in more "$program" --workers "$workers" --limit "$limit" "$folder/rated.sh" f.c
        shown "$workers by epochs"
        alike "$workers workers by epochs"
    done
    for workers in ${WORKERS:-2 4 8 16 32}; do
        reduced_in more "$program" --standing --workers "$workers" --limit "$limit" "$folder/rated.sh" f.c
        shown "$workers workers"
        alike "$workers workers"
    done
    for other in "${CVISE:-cvise}" "${CREDUCE_PERL:-/usr/bin/creduce}"; do
        command -v "$other" >/dev/null || continue
        for processes in 1 8; do
            reduced_in other "$other" --n "$processes" "$folder/rated.sh" f.c
            shown "$(basename "$other"), $processes"
        done
    done
done
