#!/usr/bin/env bash
# Tries the headers of include/: a program that uses what they have prints the same with them as with the system's, compiles without a
# warning, is lawful, and so is each header alone. By hand only: bench/headers.sh, with gcc. CREDUCE=PROGRAM takes another program than the
# launcher at the top.
set -u
top=$(cd "$(dirname "${BASH_SOURCE[0]}")/.." && pwd)
program=${CREDUCE:-$top/creduce}
export CREDUCE_QUIET=1
folder=$(mktemp -d)
trap 'rm -r "$folder"' EXIT
cd "$folder" || exit 1
failed=0

# lawful FILE: preprocessed with these headers it compiles, and the program takes it.
lawful() {
    gcc -E -P -nostdinc -I "$top/include" "$1" -o readable.c &&
        gcc -std=c11 -Wall -Wextra -Werror -pedantic-errors readable.c -o here &&
        rm -f readable.c.orig && "$program" --limit 0 has:main readable.c >said.txt
    [ $? = 7 ] || { echo "FAILED: $1: $(cat said.txt)"; failed=1; }
}

for header in "$top"/include/*.h; do
    printf '#include <%s>\n#include <%s>\nint main(void) { return 0; }\n' "${header##*/}" "${header##*/}" >alone.c
    lawful alone.c
done
lawful "$top/bench/headers.c"
gcc -std=c11 "$top/bench/headers.c" -o there && ./there >there.txt && ./here >here.txt && cmp here.txt there.txt || failed=1
[ "$failed" = 0 ] && echo "the headers print what the system's do, $(wc -l <here.txt) lines"
exit "$failed"
