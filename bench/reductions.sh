# shellcheck shell=bash
# To be sourced: reductions in a folder of their own that goes when the script ends, those of a main's lines whose test sleeps among them.

# begin_reductions [SECONDS]: goes to the folder. The test of lines sleeps so long. CREDUCE=PROGRAM takes another program than the launcher
# at the top.
begin_reductions() {
    local top
    top=$(cd "$(dirname "${BASH_SOURCE[0]}")/.." && pwd)
    program=${CREDUCE:-$top/creduce}
    seconds=${1:-0}
    folder=$(mktemp -d)
    trap 'rm -r "$folder"' EXIT
    export CREDUCE_QUIET=1
    "$program" --limit 0 "has:;" gen:1:1 >/dev/null 2>&1 || true
    cd "$folder" || exit 1
}

# lines COUNT EVERY: a main of so many lines between its braces into whole.c, of which the test wants all but each EVERY-th.
lines() {
    awk -v n="$1" -v every="$2" 'BEGIN {
        print "int main(){"
        for (i = 1; i <= n; i++) print (i % every ? "int keep_" : "int line_") i ";"
        print "}"
    }' >whole.c
    {
        echo '#!/bin/sh'
        echo "sleep $seconds; echo x >>../trials.txt"
        echo "test \"\$(grep -c keep f.c)\" = $(grep -c keep whole.c)"
    } >slow.sh
    chmod +x slow.sh
}

# text_of NUMBER ITEMS FILE: a generated program, as a test sees it.
text_of() {
    printf '#!/bin/sh\nexec cp gen.c ../%s\n' "$3" >copies.sh
    chmod +x copies.sh
    "$program" --workers 1 --limit 0 ./copies.sh "gen:$1:$2" >/dev/null
    [ -s "$3" ] || { echo "no text of gen:$1:$2"; exit 1; }
}

# reduced WORDS..: a reduction of f.c, a copy of whole.c; sets line and spent (in ms).
reduced() {
    local begun
    cp whole.c f.c
    begun=$(date +%s%N)
    line=$("$program" "$@" f.c) || { echo "it ended with: $line"; exit 1; }
    # shellcheck disable=SC2034 # it is read by the script that sources this
    spent=$((($(date +%s%N) - begun) / 1000000))
}

# reduce WORKERS: one of the lines; sets line, spent and trials.
reduce() {
    : >trials.txt
    reduced --workers "$1" --passes l ./slow.sh
    # shellcheck disable=SC2034 # so is this
    trials=$(wc -l <trials.txt)
}
