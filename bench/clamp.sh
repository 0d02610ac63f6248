#!/usr/bin/env bash
# Reduces examples/clamp by this creduce, and by C-Reduce and C-Vise: how often each starts the test, and what it comes to.
# By hand only: bench/clamp.sh [SECONDS], the most that each of the others may take (900). It needs gcc 12 and clang; of the others it takes
# those that it finds, C-Reduce as the `creduce` of PATH.
set -eu
top=$(cd "$(dirname "${BASH_SOURCE[0]}")/.." && pwd)
most=${1:-900}
folder=$(mktemp -d)
trap 'rm -rf "$folder"' EXIT
export CREDUCE_QUIET=1
"$top/creduce" --limit 0 "has:;" gen:1:1 >/dev/null 2>&1 || true

# One reduction in a folder of its own: what it is called, the test, and the words before it.
reduction() {
    local name=$1 test=$2 place=$folder/$1-$2 from=$SECONDS
    shift 2
    mkdir "$place" && cp "$top"/examples/clamp/* "$place" && cd "$place"
    sed -i "3i printf . >>$place/starts" gcc_differs.sh
    sed -i "s|^\.\./|$place/|" gcc_differs_cleanly.sh
    "$@" "$place/$test.sh" thermostat.c >log 2>&1 && status=0 || status=$?
    echo "$name $test: status $status, $(wc -c <starts) starts, $(wc -c <thermostat.c) bytes, $((SECONDS - from)) s"
    timeout 60 "$top/creduce" --limit 0 'has:;' thermostat.c | sed 's/^/    as this creduce reads it: /' || true
}

for test in gcc_differs gcc_differs_cleanly; do
    reduction this $test "$top/creduce"
    for other in creduce cvise; do
        path=$(command -v $other) || continue
        reduction $other $test timeout "$most" "$path" --n 4
    done
done
