#!/usr/bin/env bash
# Refuses a run each of its calls for memory in turn: the first, the second, and so on, until a run makes fewer calls. Each run is to end
# with status 11 and no line, or a part of one, or as the run that is refused nothing; FILE then has its old bytes or the result, FILE.orig
# the bytes read where it is there. By hand only: bench/starving.sh. It needs gcc and the C library of GNU, and the native program, which
# a launcher isn't: CREDUCE=PROGRAM takes another one than that of the launcher at the top.
set -u
bench=$(cd "$(dirname "${BASH_SOURCE[0]}")" && pwd)
. "$bench/reductions.sh"
begin_reductions 0
native=${CREDUCE:-$(dirname "$program")/crates/creduce/out/creduce}
gcc -std=gnu11 -O1 -Wall -shared -fPIC "$bench/starving.c" -o starving.so || exit 1
printf 'int f(int x){\nreturn x;\n}\nint main(void){\nreturn f(0);\n}\n' >whole.c
few=2000

# run NUMBER: a reduction of f.c, a copy of whole.c, that is refused this call; sets status, calls and the text out.txt.
run() {
    rm -f f.c.orig f.c.log
    cp whole.c f.c
    head -c 8 /dev/zero >calls
    status=0
    STARVE_AT=$1 STARVE_COUNT=$PWD/calls LD_PRELOAD=$PWD/starving.so "$native" "${words[@]}" f.c >out.txt 2>err.txt || status=$?
    calls=$(($(od -An -t u8 calls)))
}

# same FILE NAME: whether a file is as the run that was refused nothing left or put it.
same() { cmp -s "$1" "wanted.$2"; }

# is_right: whether the last run ended in one of the two ways.
is_right() {
    [ ! -s err.txt ] || return 1
    [ ! -e f.c.orig ] || same f.c.orig orig || return 1
    if [ "$status" = 11 ]; then
        { cmp -s f.c whole.c || { same f.c file && [ -e f.c.orig ]; }; } && cmp -s -n "$(stat -c %s out.txt)" out.txt wanted.out
    else
        [ "$status" = 0 ] && same out.txt out && same f.c file && same f.c.orig orig && same f.c.log log
    fi
}

# starve WORDS..: all runs with these words.
starve() {
    words=("$@")
    run 0
    local all=$calls at=0 runs=0 starved=0 own=0 every
    [ "$status" = 0 ] || { echo "a run that is refused nothing ended with $status: $(cat out.txt err.txt)"; exit 1; }
    [ "$all" -gt 0 ] || { echo "no call for memory is seen: the program isn't one that takes a preloaded library"; exit 1; }
    cp f.c wanted.file; cp f.c.orig wanted.orig; cp f.c.log wanted.log; cp out.txt wanted.out
    # Of many calls, all of the first ones, and about as many of those behind them.
    every=$(((all - few > 0 ? all - few : 0) / few | 1))
    while at=$((at < few ? at + 1 : at + every)); run "$at"; [ "$calls" -ge "$at" ]; do
        is_right || { echo "call $at refused: status $status, output $(cat out.txt err.txt), FILE $(cat f.c)"; exit 1; }
        runs=$((runs + 1))
        if [ "$status" = 11 ]; then starved=$((starved + 1)); else own=$((own + 1)); fi
    done
    echo "${words[*]}: $all calls for memory; $runs of them refused, each by itself (all up to call $few, then one of $every):" \
        "$starved ended with status 11, $own with the run's own result"
}

starve --workers 1 has:main
starve --workers 2 has:main
