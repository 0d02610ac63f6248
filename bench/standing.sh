#!/usr/bin/env bash
# Reductions by standing workers beside those that start their threads anew for each epoch.
# By hand only: bench/standing.sh [COUNT]. First so many random reductions (1,000) with 1 to 32 workers, while twice as many loops run as
# there are processors: file, log, summary and status have to be alike. A third of them ask `has:`, a third a formula, and a third a program
# that answers by the bytes' checksum, yes to one to four in five. Then, with nothing beside them, the time and the number of tests of a
# generated program, of one with a test of about a millisecond and, where gcc 12 and clang are there, of examples/clamp. CREDUCE=PROGRAM takes
# another program than the launcher at the top, and LOOPS=N has other loops beside them, where the machine has load enough.
set -u
here=$(cd "$(dirname "${BASH_SOURCE[0]}")" && pwd)
. "$here/reductions.sh"
begin_reductions 0
count=${1:-1000}

# run NAME WORDS..: a reduction of a copy of whole.c in a folder of this name; leaves there what it said, its status, and its files.
run() {
    local place=$1
    shift
    rm -rf "$place" && mkdir "$place" && cp whole.c "$place/f.c" && cd "$place" || exit 1
    "$program" "$@" f.c >said 2>&1
    echo $? >status
    cd ..
}

# A test that says yes to the whole file, and to one to four in five of the others.
cat >chance.sh <<'SH'
#!/bin/sh
cmp -s f.c "$WHOLE" && exit 0
set -- $(cksum <f.c)
[ $((($1 + SEED) % 5)) -le $((SEED / 3 % 4)) ]
SH
chmod +x chance.sh
export WHOLE=$folder/whole.c

# test_of NUMBER: a test that says yes to whole.c: a text, a formula or the program.
test_of() {
    local words word
    words=$(grep -o '[a-z_][a-z_0-9]*' whole.c | sort -u)
    word=$(sed -n "$((1 + $1 * 7919 % $(wc -l <<<"$words")))p" <<<"$words")
    case $(($1 % 9)) in
    0 | 3 | 6) test=has:$word ;;
    1 | 4 | 7) test=$folder/chance.sh ;;
    2) test=if:same ;;
    5) test="if:has(\"$word\")" ;;
    8) test="if:and(has(\"$word\"),or(same,not(has(\"nowhere\"))))" ;;
    esac
}

loops=()
for _ in $(seq "${LOOPS:-$((2 * $(nproc)))}"); do
    (while :; do :; done) &
    loops+=($!)
done
trap '[ "${#loops[@]}" = 0 ] || kill "${loops[@]}" 2>/dev/null; rm -rf "$folder"' EXIT

unlike=0
for i in $(seq "$count"); do
    export SEED=$i
    workers=$((1 + i % 32))
    text_of "$i" $((1 + i % 6)) whole.c
    test_of "$i"
    asked=(--workers "$workers" --window $((1 + i % 67)) --limit $((20 + i % 60)))
    run plain "${asked[@]}" "$test"
    run standing --standing "${asked[@]}" "$test"
    diff -r -x 'creduce-*' plain standing >unlike.txt || { unlike=$((unlike + 1)); echo "reduction $i, ${asked[*]} $test: $(head -c 300 unlike.txt)"; }
done
[ "${#loops[@]}" = 0 ] || kill "${loops[@]}" 2>/dev/null
wait 2>/dev/null
echo "$count random reductions with 1 to 32 workers, under load: $unlike came out otherwise"

# beside WHAT WORDS..: the same reduction by epochs and by standing workers: milliseconds, and tests where the test counts them.
beside() {
    local what=$1 way begun
    shift
    for way in plain standing plain standing; do
        : >trials.txt
        begun=$(date +%s%N)
        if [ $way = standing ]; then run $way --standing "$@"; else run $way "$@"; fi
        echo "$what, $way: $((($(date +%s%N) - begun) / 1000000)) ms, $(wc -l <trials.txt) tests"
    done
    diff -r -x 'creduce-*' plain standing >/dev/null || echo "$what: they came out otherwise"
}

export TRIALS=$folder/trials.txt
cat >short.sh <<'SH'
#!/bin/sh
echo x >>"$TRIALS"
exec grep -q 'f3(' f.c
SH
chmod +x short.sh
text_of 7 40 whole.c
beside "gen:7:40, has:" --workers 4 'has:f3('
beside "gen:7:40, a test of a millisecond" --workers 4 "$folder/short.sh"
text_of 7 400 whole.c
beside "gen:7:400, has:" --workers 4 'has:f3('
clamp=$here/../examples/clamp
if command -v clang >/dev/null && gcc --version | grep -q ' 12\.'; then
    cp "$clamp/thermostat.c" whole.c
    sed -e "3i echo x >>\"\$TRIALS\"" -e 's/thermostat\.c/f.c/' "$clamp/gcc_differs.sh" >differs.sh
    chmod +x differs.sh
    beside "the clamp case" --workers 4 "$folder/differs.sh"
fi
