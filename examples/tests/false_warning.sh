#!/bin/sh
# Interesting while the tool in question warns about a place in the statement directly behind the call that prints AT, that statement is reached
# in a run, and another compiler doesn't warn so. What is run is lawful, so the warning is false of that run. With a LABEL the statement has that
# label in the place of AT's call, and `creduce --reached=LABEL` asks that it is reached, and evaluated whole.
# The values may come from the environment: the tool's call in BAD, a part of its warning in TEXT, the other call in GOOD, a pattern of what that
# one doesn't say in QUIET, the text in AT, the label in LABEL, the names of warnings that FILE has in KNOWN.
file=${FILE:-rotate.c} bad=${BAD:-cppcheck -q --enable=warning} text=${TEXT:-[nullPointer]} good=${GOOD:-gcc -O2 -Wall -Wextra} quiet=${QUIET:-null-dereference} at=${AT:-AT1 } label=${LABEL:-} known=${KNOWN:-}
for tool in timeout gcc "$good" "$bad"; do eval "set -- $tool" && command -v "$1" >/dev/null || exit 127; done # 127: the test itself has failed
run() { eval "shift; timeout 20 $1 \"\$@\""; }
has() { case $(cat "$1") in *"$2"*) ;; *) return 1 ;; esac; }
run 'gcc -std=c11 -pedantic-errors -Wno-newline-eof -O0' "$file" -o plain 2>errors.txt && timeout 5 ./plain >plain.txt || exit 1
[ -n "$label" ] || has plain.txt "$at" || exit 1
run "$bad" "$file" 2>loud.txt && has loud.txt "$text" || exit 1
# Between AT's call, or the label, and the place that the warning names, as FILE:LINE:COLUMN:, stands no other statement.
export file text at label
LC_ALL=C awk '
    NR == FNR && !line && index($0, ENVIRON["file"] ":") == 1 && index($0, ENVIRON["text"]) { split(substr($0, length(ENVIRON["file"]) + 2), place, ":"); line = place[1] }
    NR == FNR { next }
    FNR < line { before = before $0 " " }
    FNR == line { before = before substr($0, 1, place[2] - 1) }
    END {
        if (ENVIRON["label"] != "") exit !(before ~ "(^|[^A-Za-z0-9_])" ENVIRON["label"] " *:[^;{}]*$")
        while ((k = index(before, ENVIRON["at"] "\""))) { found = 1; before = substr(before, k + length(ENVIRON["at"])) }
        exit !(found && before ~ /^" *\) *;[^;{}]*$/)
    }' loud.txt "$file" || exit 1
run "$good -std=c11" -c "$file" -o good.o 2>quiet.txt || exit 1
grep -q -- "$quiet" quiet.txt && exit 1
# Code without effect, or an unset variable in an operand that isn't evaluated, is a warning whose name FILE hasn't.
run 'gcc -std=c11 -O2 -Wall -Wextra' -c "$file" -o names.o 2>names.txt || exit 1
! grep -o '\[-W[^]]*\]' names.txt | grep -qvxF -- "$(echo "$known" | tr ' ' '\n')"
