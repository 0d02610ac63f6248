#!/usr/bin/env bash
# Times reductions by 1, 4, 16 and 32 workers whose test only waits 200 ms, as one that asks another machine does, and counts the tests
# that were started. By hand only: bench/waiting.sh. CREDUCE=PROGRAM takes another program than the launcher at the top.
set -u
. "$(dirname "${BASH_SOURCE[0]}")/reductions.sh"
begin_reductions 0.2

# show WORKERS: prints a line, and compares the result with that of one worker.
show() {
    reduce "$1"
    if [ "$1" = 1 ]; then one=$spent && cp f.c.log one.log && cp f.c one.c; fi
    cmp -s f.c one.c && cmp -s f.c.log one.log || { echo "$1 workers ended elsewhere: $line"; exit 1; }
    awk -v w="$1" -v ms="$spent" -v one="$one" -v n="$trials" \
        'BEGIN { printf "workers %2d: %5.1f s, %4.1f times as fast as one, %d tests\n", w, ms / 1000, one / ms, n }'
}

echo 'four of 100 lines may go'
lines 100 25
for workers in 1 4 16 32; do show "$workers"; done
echo 'half of 40 lines may go'
lines 40 2
for workers in 1 4 16 32; do show "$workers"; done
