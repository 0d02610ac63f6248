#!/usr/bin/env bash
# Tries the program with test programs of many kinds, and compares what it does with what it is to do. By hand only: bench/processes.sh.
# It needs no compiler: the tests are small scripts.
set -u
top=$(cd "$(dirname "${BASH_SOURCE[0]}")/.." && pwd)
folder=$(mktemp -d)
trap 'rm -r "$folder"' EXIT
export CREDUCE_QUIET=1
"$top/creduce" --limit 0 "has:;" gen:1:1 >/dev/null 2>&1 || true
cd "$folder" || exit 1
failed=0

# script NAME LINE..: a test program of these lines.
script() {
    local name=$1
    shift
    { echo '#!/bin/sh'; printf '%s\n' "$@"; } >"$name"
    chmod +x "$name"
}

# three NAME: a file of a main of three lines.
three() { printf 'int main(){\nint a;\nint b;\nint c;\n}\n' >"$1"; }

# says WHAT STATUS TEST FILE WANTED: a run by lines ends with this status, and FILE then has this text.
says() {
    local what=$1 status=$2 test=$3 file=$4 wanted=$5 found
    found=0
    "$top/creduce" --passes l "$test" "$file" >out.txt 2>err.txt </dev/null || found=$?
    if [ "$found" = "$status" ] && [ "$(cat "$file")" = "$wanted" ] && [ ! -s err.txt ] && [ "$(wc -l <out.txt)" = 1 ]; then
        echo "ok: $what"
    else
        echo "FAILED: $what: status $found, output $(cat out.txt err.txt)"
        failed=1
    fi
}

all=$'int main(){\nint a;\nint b;\nint c;\n}'
one=$'int main(){\nint b;\n}'
mkdir -p dir 'a ü'

awk 'BEGIN { print "int main(){"; for (i = 1; i <= 1000; i++) print "int line_" i ";"; print "}" }' >dir/f.c
script one.sh "grep -q 'int line_500;' f.c"
says "a thousand lines end at the one, in another folder" 0 ./one.sh dir/f.c $'int main(){\nint line_500;\n}'

three s.c
script sleeps.sh 'sleep 0.05' 'grep -q b s.c'
says "a test that sleeps is waited for" 0 ./sleeps.sh s.c "$one"

three k.c
script kills.sh 'kill -9 $$'
says "a test that kills itself says no" 6 ./kills.sh k.c "$all"

three 'g h.c'
script 'a ü/té st.sh' "grep -q b 'g h.c'"
says "names with spaces and letters beyond ASCII" 0 'a ü/té st.sh' 'g h.c' "$one"

three t.c
script talks.sh 'echo chatty' 'echo chatty >&2' 'cat' 'grep -q b t.c'
says "a test that writes and reads is not seen" 0 talks.sh t.c "$one"

three d.c
script drops.sh 'grep -q b d.c' 'answer=$?' 'echo left >left' 'rm d.c' 'ln -s left d.c' 'exit $answer'
says "a test may change its copy and leave files behind" 0 ./drops.sh d.c "$one"

three e.c
script erases.sh 'grep -q b e.c' 'answer=$?' 'rm -r "$PWD"' 'exit $answer'
says "a test may drop its folder" 0 ./erases.sh e.c "$one"

three n.c
printf '#!/bin/sh\nexit 0\n' >plain.sh
says "a test without execute bit has failed" 8 ./plain.sh n.c "$all"
says "a folder as the test has failed" 8 ./dir n.c "$all"
says "a test that isn't there has failed" 8 ./none.sh n.c "$all"
found=0
PATH=/nonexistent "$top/crates/creduce/out/creduce" ./one.sh n.c >out.txt || found=$?
[ "$found" = 8 ] && [ "$(cat n.c)" = "$all" ] && echo "ok: without a shell the test has failed" || { echo "FAILED: without a shell"; failed=1; }

three i.c
cp i.c i.copy
script waits.sh 'grep -q b i.c || exit 1' 'sleep 1'
# Job control gives the run a process group of its own, as a terminal does.
set -m
"$top/crates/creduce/out/creduce" ./waits.sh i.c >/dev/null &
set +m
sleep 1.5
kill -INT -- "-$!"
wait $! 2>/dev/null
# What ends what the run has left goes then.
sleep 2.5
# shellcheck disable=SC2009 # of a group, and not those that have ended
if cmp -s i.c i.copy && cmp -s i.c.orig i.copy && ! ps -o stat= -g $! | grep -qv Z; then
    echo "ok: an interrupt ends the program and its test, and FILE and FILE.orig are as they were"
else
    echo "FAILED: an interrupt"
    failed=1
fi
exit $failed
