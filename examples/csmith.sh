#!/usr/bin/env bash
# csmith.sh SEED [OPTION..]: puts a program of csmith's on standard output that is made readable for creduce: preprocessed with the headers of include/,
# and without those of csmith's own functions that it doesn't call. `%X` becomes `%x`, which the profile has. Many of its programs break a
# constraint of C11 that gcc takes with a warning: two pointers of different types are compared (K33) or assigned (K37); with the
# option --no-pointers none does. Of the seeds 1 to 100 60 are taken, 21 broke K33, 15 K37 and 2 K18, and 2 ran too long (N1).
# It needs csmith, its headers (Debian's csmith and libcsmith-dev; CSMITH_HOME names the folder of csmith.h) and gcc.
set -eu
[ $# -gt 0 ] || { echo "csmith.sh: give the seed, a number" >&2; exit 2; }
top=$(cd "$(dirname "$(readlink -f "${BASH_SOURCE[0]}")")/.." && pwd)
for tool in csmith gcc awk; do command -v $tool >/dev/null || { echo "csmith.sh: $tool isn't installed" >&2; exit 127; }; done
headers=${CSMITH_HOME:-/usr/include/csmith}
[ -f "$headers/csmith.h" ] || { echo "csmith.sh: csmith.h isn't in $headers: Debian's libcsmith-dev has it, and CSMITH_HOME names its folder" >&2; exit 127; }
folder=$(mktemp -d)
trap 'rm -r "$folder"' EXIT
cd "$folder"
csmith --quiet --concise --no-argc --no-structs --no-unions --no-bitfields --no-packed-struct --no-volatiles --no-consts --no-jumps \
    --max-funcs 3 --max-block-depth 2 --seed "$@" >made.c
# Of these csmith's headers include two more, and use nothing.
mkdir none && touch none/float.h none/math.h
gcc -E -P -nostdinc -I "$top/include" -I none -I "$headers" made.c >preprocessed.c
sed 's/%\(l*\)X/%\1x/' preprocessed.c >all.c
# A part is a declaration or a function of the headers; those that no other part names go, until none is left.
while :; do
    awk '
        function named(text) { return match(text, /safe_[a-z0-9_]+|transparent_crc_bytes|creduce_[a-z]+/) ? substr(text, RSTART, RLENGTH) : "" }
        NR == FNR { for (rest = $0; (name = named(rest)) != ""; rest = substr(rest, RSTART + RLENGTH)) uses[name]++; next }
        { part = part $0 "\n" }
        /^}/ || /^[^ ].*[;}]$/ { if (uses[named(part)] != 1) printf "%s", part; part = "" }' all.c all.c >less.c
    ! cmp -s all.c less.c || break
    mv less.c all.c
done
cat all.c
