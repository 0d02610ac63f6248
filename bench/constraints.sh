#!/usr/bin/env bash
# Compares the program's rulings with a compiler's: on 10,000 small programs, which are the rows of the tests, the examples of
# docs/NUMBERS.md, those of bench/constraints.txt, and such programs with one or two tokens changed. Prints how many both take or both
# refuse, and of the others for each kind (our number, and the compiler's message without its names) how many there are, a smallest one,
# and why; a kind without a known reason is marked, and the script then ends with status 1.
# By hand only: bench/constraints.sh [COUNT]. CREDUCE=PROGRAM takes another program than the launcher at the top. It needs gcc, and takes
# some minutes. The changes are the same in each run.
#
# The compiler is gcc -std=c11 -pedantic-errors, which refuses what C11 wants a diagnostic for, and some of what it leaves undefined. No
# warning is made an error besides: those of gcc 12 that tell of a constraint are errors by that flag, and the rest tell of habits, or of
# library names declared otherwise (7.1.3p2, undefined, and K9 here).
set -eu
top=$(cd "$(dirname "${BASH_SOURCE[0]}")/.." && pwd)
program=${CREDUCE:-$top/creduce}
count=${1:-10000}
folder=$(mktemp -d)
trap 'rm -r "$folder"' EXIT
export CREDUCE_QUIET=1
"$program" --limit 0 "has:;" gen:1:1 >/dev/null 2>&1 || true
cd "$folder"
export LC_ALL=C

# ---- the programs

{
    # the rows RULING¦FILE, in which \n is the end of a line and \\ a backslash
    awk '/^(typed|name|type).*¦/ {
        sub(/^[^¦]*¦/, "")
        plain = ""
        while (match($0, /\\./)) {
            c = substr($0, RSTART + 1, 1)
            plain = plain substr($0, 1, RSTART - 1) (c == "n" ? " " : c)
            $0 = substr($0, RSTART + 2)
        }
        print plain $0
    }' "$top/crates/tests_law/src/checks.rt"
    # the columns "at fault" and "not at fault" of names and types
    awk -F ' \\| ' '/^\| (K[0-9]+|[12]) \|/ {
        first = $1 ~ /K/ ? 5 : 4
        for (k = first; k <= first + 1; k++)
            if (match($k, /`.*`/)) {
                text = substr($k, RSTART + 1, RLENGTH - 2)
                gsub(/\\\|/, "|", text)
                print text (text ~ /main/ ? "" : " int main(void) { return 0; }")
            }
    }' "$top/docs/NUMBERS.md"
    sed 's/^#.*//' "$top/examples/lines.c" | awk '{ gsub(/\/\*[^*]*\*\//, ""); printf "%s ", $0 } END { print "" }'
    cat "$top/bench/constraints.txt"
} >seeds.txt

awk -v count="$count" '
# the minimal standard generator, the same in each awk
function random(n) { state = (state * 16807) % 2147483647; return state % n }
function add(text) { if (!(text in seen) && made < count) { seen[text] = 1; made++; print text } }
function is_in(list, word) { return index(list, " " word " ") > 0 }
function split_up(rest,   n) {
    n = 0
    while (rest != "") {
        if (match(rest, /^[ \t]+/)) { rest = substr(rest, RLENGTH + 1); continue }
        if (match(rest, /^[A-Za-z_][A-Za-z0-9_]*/)) {}
        else if (match(rest, /^[0-9][A-Za-z0-9_.]*/)) {}
        else if (match(rest, /^"([^"\\]|\\.)*"/)) {}
        else if (match(rest, /^\047([^\047\\]|\\.)*\047/)) {}
        else if (match(rest, /^(<<=|>>=|\.\.\.)/)) {}
        else if (match(rest, /^(<<|>>|<=|>=|==|!=|&&|\|\||\+\+|--|->|[-+*\/%&|^]=)/)) {}
        else match(rest, /^./)
        token[++n] = substr(rest, 1, RLENGTH)
        rest = substr(rest, RLENGTH + 1)
    }
    return n
}
function joined(n,   k, text) {
    text = ""
    for (k = 1; k <= n; k++) if (token[k] != "") text = text (text == "" ? "" : " ") token[k]
    return text
}
function kind_of(word) {
    if (word ~ /^[A-Za-z_]/) return is_in(types, word) ? "type" : is_in(words, word) ? "word" : "name"
    if (word ~ /^["\0470-9]/) return "literal"
    return is_in(" ( ) { } [ ] ; , : ... ", word) ? "mark" : "operator"
}
# a token of this kind, 0 where there is none
function any(kind, n,   k, many, at) {
    many = 0
    for (k = 1; k <= n; k++) if (kind_of(token[k]) == kind) at[++many] = k
    return many ? at[1 + random(many)] : 0
}
function change(n,   way, k, other) {
    way = random(24)
    k = 1 + random(n)
    if (way < 2) token[k] = ""
    else if (way < 4) token[k] = token[k] " " token[k]
    else if (way < 6) { if (k < n) { other = token[k]; token[k] = token[k + 1]; token[k + 1] = other } }
    else if (way < 8) token[k] = token[1 + random(n)]
    else if (way < 12) { if (k = any("type", n)) token[k] = type_list[1 + random(type_count)] }
    else if (way < 17) { if (k = any("name", n)) token[k] = token[any("name", n)] }
    else if (way < 20) { if (k = any("operator", n)) token[k] = operator_list[1 + random(operator_count)] }
    else if (way < 22) { if (k = any("literal", n)) token[k] = literal_list[1 + random(literal_count)] }
    else token[k] = more_list[1 + random(more_count)] " " token[k]
}
BEGIN {
    state = 20261128
    types = " void char short int long signed unsigned _Bool const volatile static extern register auto typedef inline struct enum "
    words = " if else while for do switch case default break continue return goto sizeof "
    type_count = split(types, type_list, " ")
    operator_count = split("+ - * / % << >> < > <= >= == != & ^ | && || ! ~ = += -= *= /= %= <<= >>= &= ^= |= ++ -- . -> ? , sizeof", operator_list, " ")
    literal_count = split("0 1 2 3 1u 1l 1ull 0x80000000 2147483648 \047a\047 \"\" \"ab\" 40", literal_list, " ")
    more_count = split("* & const volatile static [2] [] () (int) (void*) (char) 0, { } ! - ++ sizeof unsigned long , ; 1+ return", more_list, " ")
}
# long programs are changed more often
{ text[++texts] = $0; for (k = 0; k <= length($0) / 80; k++) chosen[++choices] = texts }
END {
    for (k = 1; k <= texts; k++) add(text[k])
    while (made < count) {
        n = split_up(text[chosen[1 + random(choices)]])
        change(n)
        if (random(3) == 0) change(n)
        add(joined(n))
    }
}' seeds.txt >programs.txt
mkdir files
awk '{ file = sprintf("files/p%05d.c", NR); print >file; close(file) }' programs.txt

# ---- the rulings: a line `p00001.c:1: not in the subset: WORD NUMBER` where a program is refused; no text of it has a `zz`

cd files
printf '%s\n' *.c | xargs -n 1 -P "$(nproc)" "$program" --limit 0 has:zz >../rulings.txt 2>&1 || true
printf '%s\n' *.c | xargs -n 100 -P "$(nproc)" gcc -std=c11 -pedantic-errors -fsyntax-only 2>../messages.txt || true
cd ..

# ---- the kinds

cat >reasons.txt <<'WHY'
token¦accepts¦tokens of the subset: no floating constants, wide literals, characters of several letters, trigraphs, `$` in names
parse 1¦accepts¦the grammar of the subset: no parameters behind their list, no words or `*` in `[]`, no wide literals, no unnamed members
parse 4¦accepts¦a form that the subset leaves out
type 3¦accepts¦`enum e;` of a tag that is visible declares nothing (own)
type 6¦accepts¦a tentative definition of an incomplete type (6.9.2p3; own for external linkage); gcc sees it later
type 7¦accepts¦sizes that vary, and more than 1,048,576 cells (own)
type 8¦accepts¦pointers to functions, structures as results, `()` in a declaration (own)
type 9¦accepts¦names of the library (7.1.3p2), and `const int f(void)` against `int f(void)`, of which gcc follows a later standard
type 10¦accepts¦`int f(V)` where V is void, in a definition: 6.7.6.3p10 allows it
type 12¦accepts¦constant expressions and address constants by the letter of 6.6; gcc takes more (6.6p10)
type 14¦accepts¦`[]` elsewhere (own)
type 16¦accepts¦names of functions as values (own)
type 17¦accepts¦arguments for `()`: 6.5.2.2p2 speaks of prototypes, and p6 leaves it undefined; more arguments for `...` (own)
type 24¦accepts¦`*` of a pointer to an incomplete type (own)
type 27¦accepts¦casts between integers and pointers, and those that take `volatile` off (own)
type 30¦accepts¦6.5.6p3 wants complete types of both pointers; gcc asks for that of one
type 37¦accepts¦6.5.16.2p1 forbids `b += p` also where b is a _Bool; gcc takes it
type 40¦accepts¦forms of main, and uses without a definition, also in `sizeof` (own)
type 41¦accepts¦`volatile` of members and structures (own)
type 42¦accepts¦jumps into blocks (own)
taken¦_ as only parameter may not be qualified¦no constraint in C11
taken¦_ must be the only parameter¦no constraint in C11 where nothing is defined
taken¦inline function _ declared but never defined¦6.7.4p7 leaves it undefined, which isn't asked
taken¦cannot inline function _¦6.7.4p4, which isn't asked: a fault
taken¦_ is static but used in inline function _ which is not static¦6.7.4p3, which isn't asked: a fault
taken¦_ is static but declared in inline function _ which is not static¦6.7.4p3, which isn't asked: a fault
taken¦declaration of non-variable _ in _ loop initial declaration¦6.8.5p3, of which only the storage classes are asked: a fault
taken¦_ declared in _ loop initial declaration¦6.8.5p3, of which only the storage classes are asked: a fault
taken¦conflicting types for _; have an enumeration¦an enumeration is its integer type here, so two are one type: a fault
taken¦_ of _ from incompatible pointer type an enumeration¦an enumeration is its integer type here, so two are one type: a fault
taken¦_ has an incomplete type _¦6.3.2.1p2 leaves it undefined, which isn't asked: a fault
taken¦ISO C forbids subscripting _ array¦6.3.2.1p3 leaves it undefined that an array of class register becomes a pointer, which isn't asked: a fault
taken¦address of register variable _ requested¦6.3.2.1p3 leaves it undefined that an array of class register becomes a pointer, which isn't asked: a fault
taken¦_ is normally a non-static function¦no constraint, but such a main can't be called from outside: a fault
WHY

awk '
function message_of(text) {
    gsub(/\047enum [^\047]*\047/, "an enumeration", text)
    gsub(/\047[^\047]*\047/, "_", text)
    sub(/ \[-W[^]]*\]$/, "", text)
    sub(/^initialization of (_|an enumeration) from incompatible/, "_ of _ from incompatible", text)
    return text
}
FILENAME == "reasons.txt" { split($0, part, "¦"); reason[part[1] "¦" part[2]] = part[3]; next }
FILENAME == "rulings.txt" {
    if (match($0, /p[0-9]+\.c:[0-9]+: not in the subset: /)) {
        k = substr($0, RSTART + 1, 5) + 0
        ours[k] = substr($0, RSTART + RLENGTH)
        sub(/^token .*/, "token", ours[k])
    }
    answers++
    next
}
FILENAME == "messages.txt" {
    if (match($0, /^p[0-9]+\.c:[0-9:]+ error: /)) {
        k = substr($0, 2, 5) + 0
        if (!(k in theirs)) theirs[k] = message_of(substr($0, RSTART + RLENGTH))
    }
    next
}
{
    all++
    refused = all in ours
    if (refused == (all in theirs)) { agree++; both += refused; next }
    kind = (refused ? ours[all] : "taken") "¦" (refused ? "accepts" : theirs[all])
    many[kind]++
    if (!(kind in least) || length($0) < length(least[kind])) least[kind] = $0
}
END {
    if (answers < all) { print "only " answers " answers of the program for " all " files" >"/dev/stderr"; exit 2 }
    printf "%d of %d: both refuse %d, both take %d; %d differ\n", agree, all, both, agree - both, all - agree
    for (kind in many) {
        split(kind, part, "¦")
        unknown += !(kind in reason)
        row = sprintf("%5d  %s\n       %s\n       %s\n", many[kind], part[1] == "taken" ? "taken; gcc: " part[2] : part[1] "; gcc takes it",
            kind in reason ? reason[kind] : "NO KNOWN REASON", least[kind])
        rows[++n] = row
    }
    for (i = 1; i <= n; i++) for (j = i + 1; j <= n; j++) if (substr(rows[j], 7) < substr(rows[i], 7)) { row = rows[i]; rows[i] = rows[j]; rows[j] = row }
    for (i = 1; i <= n; i++) printf "%s", rows[i]
    exit unknown > 0
}' reasons.txt rulings.txt messages.txt programs.txt
