#!/usr/bin/env bash
# Makes programs by chance in which pointers are cast from one type to another, through several types and back, are compared, moved,
# subtracted and followed, and takes 500 of them that are lawful. Each is built by gcc and by clang at -O0 and at -O2, and once with the
# sanitizers of each, and run: all six must end alike and print alike, the sanitizers say nothing, and the run that the program makes is
# to end and print so too (it is asked by a formula). Prints how many did and how many beside them aren't lawful, and a smallest program
# of each kind that did not; it then ends with status 1.
# By hand only: bench/casts.sh [COUNT]. CREDUCE=PROGRAM takes another program than the launcher at the top. It needs gcc and clang, and
# takes some minutes. The programs are the same in each run.
#
# bench/casts.sh --csmith COUNT OLD NEW: instead has two built programs rule on the first COUNT programs of csmith's (examples/csmith.sh, by
# their seeds), and prints those that they don't rule alike: their ends, what they say, and, where both take one, whether the run that
# they make ends and prints as gcc's does. It then ends with status 1. It needs csmith and its headers.
set -eu
top=$(cd "$(dirname "${BASH_SOURCE[0]}")/.." && pwd)
program=${CREDUCE:-$top/creduce}
folder=$(mktemp -d)
trap 'rm -r "$folder"' EXIT
export CREDUCE_QUIET=1 LC_ALL=C program top

# ---- what two programs say of csmith's

# ruled PROGRAM SEED: the end, what it says, and whether the run is gcc's
ruled() {
    local status=0 same=''
    timeout 300 "$1" --limit 0 "has:int main" "$2.c" >"$2.said" 2>&1 || status=$?
    if [ "$status" = 7 ]; then
        timeout 300 "$1" --limit 0 "if:and(ends($(cat "$2.end")),prints(\"$(cat "$2.out")\n\"))" "$2.c" >/dev/null 2>&1 || same=$?
        [ "$same" = 7 ] && same=gcc
    fi
    echo "$status${same:+, the run is $same} $(tr '\n' ' ' <"$2.said")"
}

# compare SEED OLD NEW: alike and lawful, alike and refused, not made, or what differs
compare() {
    local seed=$1 one other status=0
    "$top/examples/csmith.sh" "$seed" >"$seed.c" 2>/dev/null && [ -s "$seed.c" ] && gcc -w -o "$seed.run" "$seed.c" 2>/dev/null || { echo "not made"; return; }
    timeout 10 "./$seed.run" >"$seed.out" 2>/dev/null || status=$?
    echo "$status" >"$seed.end"
    one=$(ruled "$2" "$seed")
    other=$(ruled "$3" "$seed")
    rm -f "$seed".*
    if [ "$one" != "$other" ]; then
        echo "seed $seed: $one; now $other"
    elif [ "${one%%[ ,]*}" = 7 ]; then
        echo "${one%% }"
    else
        echo "refused"
    fi
}

if [ "${1:-}" = --csmith ]; then
    [ $# = 4 ] || { echo "casts.sh: --csmith COUNT OLD NEW" >&2; exit 2; }
    command -v csmith >/dev/null || { echo "casts.sh: csmith isn't installed" >&2; exit 127; }
    old=$(realpath "$3") new=$(realpath "$4")
    cd "$folder"
    export -f ruled compare
    seq "$2" | xargs -P "$(nproc)" -I {} bash -c 'compare "$1" "$2" "$3"' _ {} "$old" "$new" >all
    grep '^seed' all || true
    awk -v count="$2" '/^7/ { taken++ } /^7, the run is gcc/ { same++ } /^refused/ { refused++ } /^not made/ { none++ } /^seed/ { differ++ }
        END {
            printf "of %d programs of csmith both take %d, and %d of these runs are those of gcc; ", count, taken, same
            printf "both refuse %d alike, %d were not made, and %d are ruled otherwise\n", refused, none, differ
        }' all
    if grep -q '^seed' all; then exit 1; fi
    exit
fi

count=${1:-500}
"$program" --limit 0 "has:;" gen:1:1 >/dev/null 2>&1 || true
cd "$folder"

# A file that is taken, and not yet reduced, ends with the status of a limit, 7.

# ---- the programs, one a line

made() {
    awk -v count="$1" '
# the minimal standard generator, the same in each awk
function random(n) { state = (state * 16807) % 2147483647; return state % n }
function one_of(list,   words) { return words[1 + random(split(list, words, "|"))] }

# a pointer to a type, and one that may stand in the same array
function at(type) {
    if (type == "int") return one_of("&i|&j|a|a + 1|&a[2]|b[0]|b[1]|&b[1][2]|&s.m|&s.n|&u.k|&u.in.n|&v[1].m")
    if (type == "long") return one_of("&l|&t.l")
    if (type == "char") return one_of("c|&c[3]|&s.c|&v[0].c")
    if (type == "unsigned") return one_of("&w|y|&y[1]")
    if (type == "struct s") return one_of("&s|v|&v[1]|&u.in")
    if (type == "struct t") return "&t"
    return "&u"
}
function array(type) {
    if (type == "int") return one_of("a|b[0]|b[1]")
    if (type == "char") return "c"
    if (type == "struct s") return "v"
    return "y"
}
function value(type, pointer) {
    if (type == "struct s") return one_of("(" pointer ")->m|(" pointer ")->n|(" pointer ")->c|(*(" pointer ")).m")
    if (type == "struct t") return "(int)(" pointer ")->l"
    if (type == "struct u") return one_of("(" pointer ")->k|(" pointer ")->in.m|(" pointer ")->in.c")
    return "(int)*(" pointer ")"
}
# through several types, none of which is followed
function through(pointer,   k) {
    for (k = random(3); k >= 0; k--)
        pointer = "(" one_of("void|void|char|int|unsigned|long|short|struct s|struct t|struct u|const int|const void|unsigned char") " *)(" pointer ")"
    return pointer
}
function back(type, pointer) {
    return "(" (random(4) ? "" : "const ") type " *)" through(pointer)
}
function term(   type, other, kind, p, x) {
    type = one_of("int|int|int|long|char|unsigned|struct s|struct s|struct t|struct u")
    kind = random(13)
    p = at(type)
    # once in a while as another type, which is no lawful access
    if (random(40) == 0) type = one_of("int|long|char|unsigned|struct s|struct t|struct u")
    if (kind < 4) return value(type, back(type, p))
    if (kind == 4) return "(void *)(" p ") == " through(p)
    if (kind == 5) { other = one_of("int|long|char|struct s"); return through(p) " == (void *)(" at(other) ")" }
    if (kind == 6) return "!(" through(p) ") + (_Bool)(" through(at(type)) ")"
    type = one_of("int|int|char|struct s|unsigned")
    x = array(type)
    if (kind == 7) return value(type, "(" back(type, x) ") + 1")
    if (kind == 8) return "(int)((" type " *)" through(x " + 1") " - (" type " *)" through(x) ")"
    if (kind == 9) return "(" type " *)" through(x) " < (" type " *)" through(x " + 1")
    if (kind == 10) return one_of("get(" through(at("int")) ")|get(same(" through(at("int")) "))|taken(" through(at("struct s")) ")->n")
    if (kind == 11) return one_of("(*(int (*)[3])" through("b") ")[1]|((const int (*)[3])b)[1][2]|(*(int (*)[3])" through("&a") ")[2]|((int (*)[3])" through("b") " + 1)[0][0]")
    return one_of("**(int **)" through("&p") "|**(int **)" through("q") "|(int)((int *)(&a + 1) - a)|*(*(int *(*)[2])" through("&q") ")[1]")
}
BEGIN {
    state = 20261
    for (k = 0; k < 40; k++) random(2)
    while (made < count) {
        body = ""
        for (n = 3 + random(8); n > 0; n--) body = body " r = (r * 3 + (" term() ")) & 1023;"
        made++
        print "int printf(const char *, ...); struct s { int m; char c; int n; }; struct t { long l; }; struct u { struct s in; int k; }; int i = 1, j = 2, a[3] = { 3, 4, 5 }, b[2][3] = { { 6, 7, 8 }, { 9, 10, 11 } }; long l = 12; char c[4] = { 13, 14, 15, 16 }; unsigned w = 17, y[2] = { 18, 19 }; struct s s = { 20, 21, 22 }, v[2] = { { 23, 24, 25 }, { 26, 27, 28 } }; struct t t = { 29 }; struct u u = { { 30, 31, 32 }, 33 }; int *p = &i, *q[2] = { &j, &a[1] }; int get(const void *v) { const int *p = v; return *p; } void *same(const void *v) { return (void *)v; } struct s *taken(const void *v) { return (struct s *)v; } int main(void) { int r = 0;" body " printf(\"%d\\n\", r); return r & 63; }"
    }
}'
}

# ---- what becomes of one

# the end of a ruling on a program of this number: 7 where it is lawful, as nothing is reduced
rule_one() {
    local status=0
    "$program" --limit 0 "has:int main" "$1.c" >/dev/null 2>&1 || status=$?
    echo "$1 $status"
}

# a lawful program: alike, or a line that says what differs
run_one() {
    local number=$1 wanted='' found flags k=0 status
    for flags in "gcc -O0" "gcc -O2" "clang -O0" "clang -O2" "gcc -O1 -fsanitize=undefined,address" "clang -O1 -fsanitize=undefined,address"; do
        k=$((k + 1)) status=0
        # shellcheck disable=SC2086
        if $flags -std=c11 -w -o "$number.run" "$number.c" 2>/dev/null; then
            timeout 10 "./$number.run" >"$number.out" 2>"$number.err" || status=$?
            found="$status $(cat "$number.out") $(head -c 200 "$number.err")"
        else
            found="isn't built"
        fi
        [ $k = 1 ] && wanted=$found
        [ "$found" = "$wanted" ] || { echo "$flags: $found and not $wanted: $(cat "$number.c")"; return; }
    done
    status=0
    "$program" --limit 0 "if:and(ends(${wanted%% *}),prints(\"$(cat "$number.out")\n\"))" "$number.c" >/dev/null 2>&1 || status=$?
    if [ "$status" = 7 ]; then
        echo "alike"
    else
        echo "creduce: another end than $wanted: $(cat "$number.c")"
    fi
}
export -f rule_one run_one

# as many as are wanted, in their order, and how many before the last of them aren't lawful
made $((count * 3)) | awk '{ print >(NR ".c"); close(NR ".c") }'
seq $((count * 3)) | xargs -P "$(nproc)" -I {} bash -c 'rule_one "$1"' _ {} | sort -n >ruled
awk -v count="$count" '$2 == 7 && n < count { n++; print $1 >"lawful" } n < count && ($2 == 4 || $2 == 5) { refused++ }
    $2 != 4 && $2 != 5 && $2 != 7 { print "the ruling on program " $1 " ended with " $2 >"differ" } END { print refused + 0 >"refused" }' ruled
touch lawful differ
xargs -P "$(nproc)" -I {} bash -c 'run_one "$1" 2>/dev/null | head -n 1' _ {} <lawful >all || true
grep -v '^alike$' all | awk '{ kind = $0; sub(/:.*/, "", kind); if (!(kind in least) || length($0) < length(least[kind])) least[kind] = $0; n[kind]++ }
    END { for (kind in least) print n[kind] " of this kind: " least[kind] }' >>differ
cat differ
alike=$(grep -c '^alike$' all || true)
echo "$alike lawful programs with casts of pointers ended alike in gcc and clang, in their sanitizers and here; among them $(cat refused) aren't lawful"
[ ! -s differ ] && [ "$alike" -ge "$count" ]
