#!/usr/bin/env bash
# Times reductions with 1, 2 and 4 workers whose test sleeps 50 ms, as ratios in one run, and counts the trials that were made in
# vain. A trial that has begun isn't broken off, so each accepted variant costs part of a trial's time. By hand only: bench/workers.sh.
set -u
. "$(dirname "${BASH_SOURCE[0]}")/reductions.sh"
begin_reductions 0.05

# compare WHAT: the same reduction with 1, 2 and 4 workers.
compare() {
    local workers first wanted fewest
    reduce 1
    first=$spent wanted=$line fewest=$trials
    cp f.c.log wanted.log
    echo "$1: $line"
    for workers in 2 4; do
        reduce "$workers"
        cmp -s f.c.log wanted.log && [ "$line" = "$wanted" ] || { echo "$workers workers ended elsewhere: $line"; exit 1; }
        awk -v w="$workers" -v ms="$spent" -v one="$first" -v n="$trials" -v few="$fewest" \
            'BEGIN { printf "%d workers: %d ms, %.2f times as fast as one; %d trials, %d in vain\n", w, ms, one / ms, n, n - few }'
    done
}

lines 48 2
compare 'half of 48 lines may go'
lines 48 8
compare 'one in eight of 48 lines may go'
lines 200 50
compare 'one in fifty of 200 lines may go'
