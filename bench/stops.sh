#!/usr/bin/env bash
# Kills reductions that keep a journal, 1,000 times in all, each at a random moment, and goes on with each until it ends: the file and the
# log have to be those of a reduction without a stop, and no record that stood may be gone. The file is examples/clamp/thermostat.c; the
# test is by turns a script that takes 50 ms, a text and a formula, by 1 to 8 workers. Then the same on a full disk: it ends with 12, and goes
# on once there is room.
# By hand only: bench/stops.sh [KILLS]. CREDUCE=PROGRAM takes another program than the launcher at the top. The full disk is a file system
# in memory, which root alone may mount; TMPDIR names another disk for the rest than that of /tmp. A cut of the power isn't tried.
set -u
. "$(dirname "${BASH_SOURCE[0]}")/reductions.sh"
top=$(cd "$(dirname "${BASH_SOURCE[0]}")/.." && pwd)
most=${1:-1000}
begin_reductions 0.05
cp "$top/examples/clamp/thermostat.c" whole.c
printf '#!/bin/sh\nsleep %s\ngrep -q clamp f.c && grep -q "for (" f.c && grep -q printf f.c\n' "$seconds" >slow.sh
chmod +x slow.sh

failed() { echo "FAILED: $*" >&2; exit 1; }

# standing JOURNAL: how many whole records of it have an open gate, one after the other from the first.
standing() {
    [ -f "$1" ] || { echo 0; return; }
    od -An -v -tu1 -w32 "$1" | awk -v bytes="$(wc -c <"$1")" '$1 == 1 && bytes >= 32 * NR + 1 { n = NR; next } { exit } END { print n + 0 }'
}

# The tests, by turns: each reduction takes the next of them, and the next number of workers.
tests=(./slow.sh has:clamp 'if:and(has("clamp"),has("printf"))')

# milliseconds: since the machine began.
milliseconds() { read -r now _ </proc/uptime && echo "${now/./}0"; }

# What each test comes to without a stop, and how long it takes.
declare -A whole=()
for number in 0 1 2; do
    cp whole.c f.c && rm -f f.c.orig f.c.log
    begun=$(milliseconds)
    "$program" --workers 4 "${tests[number]}" f.c >plain.txt 2>&1 || failed "the plain reduction by ${tests[number]} ended with $?"
    whole[$number]=$(($(milliseconds) - begun))
    echo "by ${tests[number]} without a stop: ${whole[$number]} ms, $(tail -n 1 plain.txt)"
    mv f.c whole.result.$number && mv f.c.log whole.log.$number && rm -f f.c.orig
done

# same WHEN NUMBER: the file and the log are those of the test of this number without a stop.
same() { cmp -s f.c "whole.result.$2" && cmp -s f.c.log "whole.log.$2" || failed "after $1 the file or the log is another"; }

# killed NUMBER WORDS..: begins the program, lets it run for a random time, at most a tenth of what a whole reduction takes, and kills it;
# fails where it ended before.
killed() {
    local most=$((whole[$1] / 10 + 1))
    shift
    "$program" "$@" "${words[@]}" >said.txt 2>&1 &
    local it=$!
    local wait=$((RANDOM * 32768 + RANDOM))
    wait=$((wait % most))
    sleep "$((wait / 1000)).$(printf '%03d' $((wait % 1000)))"
    kill -KILL "$it" 2>/dev/null
    wait "$it" 2>/dev/null
    status=$?
    [ "$status" = 137 ]
}

kills=0 reductions=0 stood=0
while [ "$kills" -lt "$most" ]; do
    number=$((reductions % 3))
    words=(--workers $((reductions % 8 + 1)) "${tests[number]}" f.c)
    cp whole.c f.c && rm -f f.c.orig f.c.log f.c.journal f.c.journal-words
    how=--journal stood=0 last=$kills
    while killed "$number" "$how"; do
        kills=$((kills + 1))
        now=$(standing f.c.journal)
        [ "$now" -ge "$stood" ] || failed "kill $kills left $now records of $stood"
        stood=$now
        how=--resume
        # On a busy machine little more than the reading comes to pass between two kills, so each reduction has its share of them.
        if [ "$kills" -ge "$most" ] || [ $((kills - last)) -ge $((most / 12 + 1)) ]; then break; fi
    done
    if [ "$status" = 137 ]; then
        "$program" --resume "${words[@]}" >said.txt 2>&1
        status=$?
    fi
    [ "$status" = 0 ] || failed "after kill $kills it ended with $status: $(tail -n 1 said.txt)"
    same "kill $kills" "$number"
    reductions=$((reductions + 1))
done
echo "$kills kills in $reductions reductions, by scripts, texts and formulas and 1 to 8 workers: each came to the same file and log"

# ---- a full disk: the file, its copy, its log and its journal stand on it, the trials beside it
mkdir full
mount -t tmpfs -o size=48k tmpfs full 2>/dev/null || { echo 'a full disk: not tried, since nothing could be mounted'; exit 0; }
trap 'umount "$folder/full"; rm -r "$folder"' EXIT
cp whole.c full/f.c
words=(--workers 4 ./slow.sh full/f.c)
fulls=0
"$program" --journal "${words[@]}" >said.txt 2>&1 &
it=$!
# Once the first acceptance stands, the rest of the disk is filled: sooner or later a record finds no room.
for _ in $(seq 300); do [ "$(standing full/f.c.journal)" -ge 2 ] && break; sleep 0.1; done
dd if=/dev/zero of=full/filling bs=1k 2>/dev/null
wait "$it"
status=$?
while [ "$status" = 12 ]; do
    [ "$(tail -n 1 said.txt)" = 'creduce: journal fault: full/f.c.journal' ] || failed "12 with $(tail -n 1 said.txt)"
    cmp -s full/f.c whole.c && [ ! -e full/f.c.log ] || failed 'at 12 the file is another, or a log is there'
    fulls=$((fulls + 1))
    [ "$fulls" -lt 50 ] || failed 'it finds no room'
    rm -f full/filling
    "$program" --resume "${words[@]}" >said.txt 2>&1
    status=$?
done
[ "$status" = 0 ] || failed "on the full disk it ended with $status: $(tail -n 1 said.txt)"
cmp -s full/f.c whole.result.0 && cmp -s full/f.c.log whole.log.0 || failed 'after a full disk the file or the log is another'
echo "a full disk: $fulls times 12, and then the same file and log"
