#!/usr/bin/env bash
# Times a turn against the bytes of the file: generated programs of 1, 10, 100 and 890 KB, one worker, as ratios in one run. By hand
# only: bench/growth.sh. Each turn looks at one variant with a run of 16 tokens less: most of them are refused at their first wrong token,
# some are judged and run whole. CREDUCE=PROGRAM takes another program than the launcher at the top.
set -u
. "$(dirname "${BASH_SOURCE[0]}")/reductions.sh"
begin_reductions 0

# processor WORDS..: seconds of the processor.
processor() {
    local TIMEFORMAT='%U %S'
    { time "$program" "$@" >/dev/null; } 2>&1 | awk 'NF == 2 { print $1 + $2 }'
}

echo "items   bytes  turns  the file alone, ms  a turn, us  a turn's us a KB"
for items in 12 115 1150 10000; do
    turns=$((20000 / items + 20))
    text_of 7 "$items" whole.c
    bytes=$(wc -c <whole.c)
    alone=$(processor --workers 1 --passes t --limit 0 has:main "gen:7:$items")
    whole=$(processor --workers 1 --passes t --limit "$turns" has:main "gen:7:$items")
    awk -v items="$items" -v bytes="$bytes" -v turns="$turns" -v alone="$alone" -v whole="$whole" 'BEGIN {
        turn = (whole - alone) / turns
        printf "%5d  %6d  %5d  %18.1f  %10.1f  %16.2f\n", items, bytes, turns, 1000 * alone, 1e6 * turn, 1e6 * turn / (bytes / 1000)
    }'
done
