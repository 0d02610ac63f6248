#!/bin/sh
# Interesting while the compiler in question keeps a block that another one drops, the place directly in front of it is reached, and the block
# isn't. That place is a call that prints AT, in front of the branch and in its own list, and the block has one that prints DEAD. With a LABEL the
# branch has that label in the place of AT's call, and `creduce --reached=LABEL` asks that it is reached.
# The values may come from the environment: the calls in BAD and GOOD, the two texts in AT and DEAD, the label in LABEL, the names of warnings that FILE has in KNOWN.
file=${FILE:-rotate.c} bad=${BAD:-gcc -O2} good=${GOOD:-clang -O2} at=${AT:-AT1 } label=${LABEL:-} dead=${DEAD:-DEAD1 } known=${KNOWN:-}
for tool in timeout gcc "$good" "$bad"; do eval "set -- $tool" && command -v "$1" >/dev/null || exit 127; done # 127: the test itself has failed
run() { eval "shift; timeout 20 $1 \"\$@\""; }
has() { case $(cat "$1") in *"$2"*) ;; *) return 1 ;; esac; }
run 'gcc -std=c11 -pedantic-errors -Wno-newline-eof -O0' "$file" -o plain 2>errors.txt && timeout 5 ./plain >plain.txt || exit 1
if [ -z "$label" ]; then
    has plain.txt "$at" || exit 1
else # DEAD's call stands in the statement behind the label
    export label dead
    LC_ALL=C awk '
        { text = text $0 " " }
        END {
            if (!match(text, "(^|[^A-Za-z0-9_])" ENVIRON["label"] " *:")) exit 1
            text = substr(text, RSTART + RLENGTH)
            k = index(text, "\"" ENVIRON["dead"] "\"")
            exit !(k && substr(text, 1, k) !~ /;/)
        }' "$file" || exit 1
fi
has plain.txt "$dead" && exit 1
run "$bad -std=c11 -w" -S "$file" -o bad.s && has bad.s "$dead" || exit 1
run "$good -std=c11 -w" -S "$file" -o good.s || exit 1
has good.s "$dead" && exit 1
# Code without effect, or an unset variable in an operand that isn't evaluated, is a warning whose name FILE hasn't.
run 'gcc -std=c11 -O2 -Wall -Wextra' -c "$file" -o names.o 2>names.txt || exit 1
! grep -o '\[-W[^]]*\]' names.txt | grep -qvxF -- "$(echo "$known" | tr ' ' '\n')"
