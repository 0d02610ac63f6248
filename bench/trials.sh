#!/usr/bin/env bash
# Times trials whose test is `exec true`: trials a second of the program, beside those of a bare loop that starts the same test by the
# same shell. By hand only: bench/trials.sh. Both run one after the other in this one run, so the ratio says what a trial costs beside
# its test's own start. The file is a main of 200 lines between its braces, and the test says yes to it alone, so each of its 413
# variants is looked at once, and is a trial where it has both braces, so where its chunk is neither the first nor the last of its level.
set -eu
top=$(cd "$(dirname "${BASH_SOURCE[0]}")/.." && pwd)
folder=$(mktemp -d)
trap 'rm -r "$folder"' EXIT
export CREDUCE_QUIET=1
"$top/creduce" --limit 0 "has:;" gen:1:1 >/dev/null 2>&1 || true
cd "$folder"
printf '#!/bin/sh\n[ -e asked ] || exec touch asked\nexec false\n' >only_the_first.sh
chmod +x only_the_first.sh
awk 'BEGIN { print "int main(){"; for (i = 1; i <= 200; i++) print "int v" i ";"; print "}" }' >lines.c
start=$(date +%s.%N)
"$top/creduce" --workers 1 --passes l ./only_the_first.sh lines.c
middle=$(date +%s.%N)
[ "$(cat lines.c.log)" = 'end fixed 7357 413' ] || { echo "trials.sh: it ended with: $(cat lines.c.log)" >&2; exit 1; }
trials=$(awk 'BEGIN { for (c = 1; c <= 16384; c *= 2) { n = int((202 + c - 1) / c); if (n > 2) trials += n - 2 }; print trials + 1 }')
for ((i = 0; i < trials; i++)); do
    sh -c 'cd "$2" || exit 126; exec "$1"' sh "$folder/only_the_first.sh" creduce-trial-0 </dev/null >/dev/null 2>&1 || true
done
end=$(date +%s.%N)
awk -v trials="$trials" -v start="$start" -v middle="$middle" -v end="$end" 'BEGIN {
    program = (middle - start) / trials; loop = (end - middle) / trials
    printf "%d trials: %.2f ms each, %.0f a second; a bare loop %.2f ms, %.0f a second; ratio %.2f\n",
        trials, 1000 * program, 1 / program, 1000 * loop, 1 / loop, program / loop
}'
