#!/usr/bin/env bash
# Times reductions of a main of many lines, of which one has the wanted token: seconds, and turns a second.
# By hand only: bench/lines.sh. A turn is one look at one variant; the turns are counted here from the rules of the lines
# pass (crates/pass_text/README.md), apart from the program.
set -eu
top=$(cd "$(dirname "${BASH_SOURCE[0]}")/.." && pwd)
folder=$(mktemp -d)
trap 'rm -r "$folder"' EXIT

# The turns of a main of $1 lines between its braces, whose line $2 is wanted. The lines of the braces stay, since nothing parses without.
turns() {
    awk -v lines="$1" -v wanted="$2" 'BEGIN {
        lines += 2
        wanted++
        changed = 1
        while (changed) {
            changed = 0
            for (level = 0; level <= 14; level++) {
                chunk = 2 ^ (14 - level)
                index_ = 0
                while (index_ * chunk < lines) {
                    turns++
                    end = (index_ + 1) * chunk
                    if (end > lines) end = lines
                    start = index_ * chunk
                    if (start == 0 || end == lines || (start < wanted && wanted <= end)) { index_++; continue }
                    if (wanted > end) wanted -= end - start
                    lines -= end - start
                    changed = 1
                }
            }
        }
        print turns
    }'
}

export CREDUCE_QUIET=1
"$top/creduce" --limit 0 "has:;" gen:1:1 >/dev/null 2>&1 || true
echo "lines  turns  seconds  turns a second"
for lines in 100 1000 10000; do
    wanted=$((lines / 3))
    file=$folder/$lines.c
    awk -v lines="$lines" -v wanted="$wanted" 'BEGIN {
        print "int main(){"
        for (i = 1; i <= lines; i++) if (i == wanted) print "int wanted;"; else print "int v" i " = " i " + 1;"
        print "}"
    }' >"$file"
    start=$(date +%s.%N)
    "$top/creduce" --passes l has:wanted "$file"
    end=$(date +%s.%N)
    [ "$(cat "$file")" = $'int main(){\nint wanted;\n}' ] || { echo "lines.sh: $file was not reduced to its one line" >&2; exit 1; }
    awk -v lines="$lines" -v turns="$(turns "$lines" "$wanted")" -v seconds="$(echo "$end $start" | awk '{print $1 - $2}')" \
        'BEGIN { printf "%5d  %5d  %7.3f  %14.0f\n", lines, turns, seconds, turns / seconds }'
done
