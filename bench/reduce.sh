#!/usr/bin/env bash
# Times whole reductions beside those of C-Reduce and cvise, on the same files and machine, as ratios in one run: two generated programs
# and one of csmith's whose output stays the same. By hand only: bench/reduce.sh. The peers are the Debian packages creduce and cvise, and
# csmith's are csmith and libcsmith-dev; what isn't there is left out, with a word. PEER_CREDUCE=PROGRAM names C-Reduce where it isn't
# /usr/bin/creduce, PEER_SECONDS=N gives a peer more or less than 600 seconds, and CREDUCE=PROGRAM takes another program than the launcher
# at the top.
set -u
. "$(dirname "${BASH_SOURCE[0]}")/reductions.sh"
csmith=$(cd "$(dirname "${BASH_SOURCE[0]}")/../examples" && pwd)/csmith.sh
begin_reductions 0
creduce_peer=${PEER_CREDUCE:-/usr/bin/creduce}
peer_seconds=${PEER_SECONDS:-600}

# now: milliseconds of the clock.
now() { echo $(($(date +%s%N) / 1000000)); }

# times A B: how many times as long A is as B.
times() { awk -v a="$1" -v b="$2" 'BEGIN { printf (a < 10 * b ? "%.1f" : "%.0f"), a / (b > 0 ? b : 1) }'; }

# measure FILE: its bytes, and its size, as the summary says it, or why the program refuses it.
measure() {
    local said
    said=$("$program" --limit 0 has:main "$1")
    case $said in
    *' size '*) said="size $(echo "$said" | awk '{ print $3 }')" ;;
    *) said="which isn't lawful here, ${said#creduce: }" ;;
    esac
    echo "$(wc -c <"$1") bytes, $said"
}

# peer NAME PROGRAM WORDS..: the same by a peer, whose law is made of compilers: f.c is a test's yes where `wanted` ends well, gcc takes it
# without a warning that tells of undefined behaviour, its run shows none to the sanitizers, and `kept` ends well, for which law.said has
# what the run printed.
peer() {
    local name=$1 begun
    shift
    command -v "$1" >/dev/null || { echo "  $name isn't installed"; return; }
    cp whole.c f.c
    cat >law.sh <<LAW
#!/bin/sh
$wanted || exit 1
gcc -std=c11 -pedantic-errors -Wall -Werror=uninitialized -Werror=return-type -fsanitize=undefined,address -O0 f.c -o law.out 2>/dev/null || exit 1
timeout 5 ./law.out >law.said 2>&1
[ \$? -lt 124 ] && ! grep -q -e 'runtime error' -e Sanitizer law.said && $kept
LAW
    chmod +x law.sh
    ./law.sh || { echo "  $name: its law says no to the file"; return; }
    begun=$(now)
    timeout "$peer_seconds" "$@" ./law.sh f.c >peer.log 2>&1 || { echo "  $name ended with $? after $(($(now) - begun)) ms: $(tail -n 1 peer.log)"; return; }
    begun=$(($(now) - begun))
    echo "  $name: $begun ms, $(measure f.c), $(times "$begun" "$one") times as long as one worker"
}

peers() {
    peer C-Reduce "$creduce_peer" --n 4
    peer cvise cvise --n 4
}

# both WHAT TEST: whole.c by one worker and by four.
both() {
    echo "$1, $(wc -c <whole.c) bytes:"
    reduced --workers 1 "$2"
    one=$spent
    echo "  one worker: $one ms, $line"
    cp f.c result.c
    reduced --workers 4 "$2"
    cmp -s f.c result.c || { echo "four workers came to another file"; exit 1; }
    echo "  four workers: $spent ms"
}

# test_of COMMAND: the test program test.sh, which notes that it was asked.
test_of() {
    printf '#!/bin/sh\necho >>../asked\n%s\n' "$1" >test.sh
    chmod +x test.sh
    : >asked
}

# by_itself: the milliseconds of one trial by test.sh alone, on whole.c, of twenty.
by_itself() {
    local begun k
    mkdir -p alone
    cp whole.c alone/f.c
    cd alone || exit 1
    begun=$(now)
    for ((k = 0; k < 20; k++)); do ../test.sh >/dev/null 2>&1 </dev/null || true; done
    echo $((($(now) - begun) / 20))
    cd ..
}

# by_program WORKERS: the same by test.sh, with its turns a second beside the test's own cost.
by_program() {
    : >asked
    reduced --workers "$1" ./test.sh
    awk -v workers="$1" -v spent="$spent" -v turns="$(echo "$line" | awk '{ print $9 }')" -v trials="$(wc -l <asked)" -v own="$(by_itself)" 'BEGIN {
        printf "  a test program, %d workers: %d ms, %d turns, %.0f a second, %d trials, one each %.1f ms; the test by itself takes %d ms for FILE\n",
            workers, spent, turns, 1000 * turns / (spent > 0 ? spent : 1), trials, spent / (trials > 0 ? trials : 1), own
    }'
}

# compare WHAT TEXT: whole.c with has:TEXT by one worker and by four, by a test program that looks for TEXT, and by the peers with four.
compare() {
    wanted="grep -q '$2' f.c"
    kept=true
    both "$1" "has:$2"
    test_of "exec $wanted"
    by_program 1
    peers
}

text_of 7 40 whole.c
compare 'a generated program of 40 items' 'f3(s)'
text_of 3 60 whole.c
compare 'a generated program of 60 items' 'f3(s)'

# csmith_taken: the first csmith program of 6 to 9 KB, of a hundred seeds, that the program takes into whole.c; says what it refused.
csmith_taken() {
    local seed bytes said
    for ((seed = 1; seed <= 100; seed++)); do
        "$csmith" "$seed" >whole.c
        bytes=$(wc -c <whole.c)
        [ "$bytes" -ge 6000 ] && [ "$bytes" -le 9000 ] || continue
        said=$("$program" --limit 0 has:main whole.c)
        case $said in
        *' size '*) return 0 ;;
        *) echo "csmith's seed $seed, $bytes bytes: ${said#creduce: }" ;;
        esac
    done
    echo 'no csmith program of 6 to 9 KB, of a hundred seeds, is in the subset'
    return 1
}

# A test that runs the program: its output stays the same.
if command -v csmith >/dev/null && [ -e "${CSMITH_HOME:-/usr/include/csmith}/csmith.h" ]; then
    if csmith_taken; then
        gcc -w whole.c -o out && ./out >said
        test_of 'gcc -w f.c -o out && timeout 5 ./out | cmp -s - ../said'
        both 'a csmith program whose output stays the same' ./test.sh
        by_program 4
        wanted=true
        kept="cmp -s law.said '$folder/said'"
        peers
    fi
else
    echo "csmith or its headers aren't installed"
fi
