#!/usr/bin/env bash
# Reductions without the letters v and o beside those of a program that hasn't these passes.
# By hand only: bench/passes.sh OLDER [COUNT], with the path of such a program. So many generated files (200), a third of them with a test that
# is a text, a third with a formula, and a third with a program that says yes to one to four in five by the bytes' checksum; each second one with
# a journal, each third one to a limit. Result, copy, log, journal, line and status have to be alike, and so the turns; and each program has to
# take the other's log in a replay. CREDUCE=PROGRAM takes another program than the launcher at the top for the one with the passes.
set -u
older=$(readlink -f "${1:?the path of a program without the passes v and o}")
. "$(dirname "${BASH_SOURCE[0]}")/reductions.sh"
begin_reductions
count=${2:-200}

# A test that says yes to the whole file, and to one to four in five of the others.
cat >chance.sh <<'SH'
#!/bin/sh
cmp -s f.c "$WHOLE" && exit 0
set -- $(cksum <f.c)
[ $((($1 + SEED) % 5)) -le $((SEED / 3 % 4)) ]
SH
chmod +x chance.sh
export WHOLE=$folder/whole.c

# test_of NUMBER: a test that says yes to whole.c: a text, a formula or the program.
test_of() {
    local words word
    words=$(grep -o '[a-z_][a-z_0-9]*' whole.c | sort -u)
    word=$(sed -n "$((1 + $1 * 7919 % $(wc -l <<<"$words")))p" <<<"$words")
    case $(($1 % 9)) in
    0 | 3 | 6) test=has:$word ;;
    1 | 4 | 7) test=$folder/chance.sh ;;
    2) test=if:same ;;
    5) test="if:has(\"$word\")" ;;
    8) test="if:and(has(\"$word\"),or(same,not(has(\"nowhere\"))))" ;;
    esac
}

# run NAME PROGRAM WORDS..: a reduction of a copy of whole.c in a folder of this name; leaves there what was said, the status, and the files.
run() {
    local place=$1 by=$2
    shift 2
    rm -rf "$place" && mkdir "$place" && cp whole.c "$place/f.c" && cd "$place" || exit 1
    "$by" "$@" f.c >said 2>&1
    echo $? >status
    cd ..
}

# replay NAME PROGRAM: what the program says of the log in this folder.
replay() {
    cd "$1" || exit 1
    "$2" --replay f.c.log f.c 2>&1
    echo $?
    cd ..
}

unlike=0
replays=0
turns=0
for i in $(seq "$count"); do
    export SEED=$i
    text_of "$i" $((1 + i % 12)) whole.c
    test_of "$i"
    asked=(--workers $((1 + i % 4)) --window $((1 + i % 67)))
    [ $((i % 2)) = 1 ] || asked+=(--journal)
    [ $((i % 3)) != 0 ] || asked+=(--limit $((20 + i)))
    run before "$older" "${asked[@]}" "$test"
    run now "$program" "${asked[@]}" "$test"
    diff -r -x 'creduce-*' -x '*.journal-words' before now >unlike.txt || { unlike=$((unlike + 1)); echo "file $i, ${asked[*]} $test: $(head -c 300 unlike.txt)"; }
    turns=$((turns + $(awk '/ turns/ { for (k = 2; k <= NF; k++) if ($k ~ /^turns/) n = $(k - 1) } END { print n + 0 }' now/said)))
    [ "$(replay before "$program")" = "$(replay now "$older")" ] || { replays=$((replays + 1)); echo "file $i: the replays differ"; }
done
echo "$count files, $turns turns: $unlike reductions came out otherwise, $replays replays"
