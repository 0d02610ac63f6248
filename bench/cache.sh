#!/usr/bin/env bash
# Counts how often a test program is started on the sample, by windows and passes, and how often it is started about a file that it was
# asked about before. By hand only: bench/cache.sh [WITHOUT]. WITHOUT is a program that keeps no verdict, as one of a copy of this
# repository in which LONGEST of cr_pool's verdicts.rt is 0, which is proved as it stands; its starts are counted beside those with the
# cache, and its files and logs compared. Other passes are tried by the variable PASSES, one word for each run.
set -eu
top=$(cd "$(dirname "${BASH_SOURCE[0]}")/.." && pwd)
without=${1:+$(readlink -f "$1")}
folder=$(mktemp -d)
trap 'rm -r "$folder"' EXIT
export CREDUCE_QUIET=1
"$top/creduce" --limit 0 "has:;" gen:1:1 >/dev/null 2>&1 || true
program=$top/crates/creduce/out/creduce
mkdir "$folder/with" "$folder/without"

# A test of the sample that notes the checksum of each file that it is asked about.
noting() {
    printf '#!/bin/sh\nsha256sum <lines.c >>"%s/asked"\nexec "%s/examples/%s"\n' "$folder" "$top" "$1" >"$folder/test.sh"
    chmod +x "$folder/test.sh"
}

# count PROGRAM FOLDER WORDS..: reduces the sample there; sets starts, again and line.
count() {
    local program=$1 place=$2
    shift 2
    cp "$top/examples/lines.c" "$folder/$place/lines.c"
    : >"$folder/asked"
    line=$(cd "$folder/$place" && "$program" "$@" "$folder/test.sh" lines.c) || { echo "the run ended: $line"; exit 1; }
    starts=$(wc -l <"$folder/asked")
    again=$((starts - $(sort -u "$folder/asked" | wc -l)))
}

for test in divides.sh compiles.sh; do
    noting "$test"
    for passes in ${PASSES:-l lt ltb all}; do
        words=(--workers 1)
        [ "$passes" = all ] || words+=(--passes "$passes")
        for window in 1 256; do
            count "$program" with "${words[@]}" --window "$window"
            printf '%s, passes %s, window %d: %s; %d starts, %d of them about a file asked before' \
                "$test" "$passes" "$window" "$line" "$starts" "$again"
            if [ -n "$without" ]; then
                few=$starts
                count "$without" without "${words[@]}" --window "$window"
                cmp -s "$folder/with/lines.c" "$folder/without/lines.c" && cmp -s "$folder/with/lines.c.log" "$folder/without/lines.c.log" ||
                    { echo; echo 'without the cache the run ended elsewhere'; exit 1; }
                printf '; without the cache %d, %d of them again: %s in 100 saved' "$starts" "$again" \
                    "$(awk -v few="$few" -v all="$starts" 'BEGIN { printf "%.0f", 100 * (all - few) / all }')"
            fi
            echo
        done
    done
done
