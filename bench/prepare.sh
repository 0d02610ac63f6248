#!/usr/bin/env bash
# Counts the programs of gcc's torture tests that creduce-prepare makes readable and creduce takes, by its ways: bench/prepare.sh [FOLDER],
# FOLDER one of *.c, without it that of Debian's gcc-NN-source; skipped where neither is there. By hand only; it takes some minutes.
# CREDUCE=PROGRAM takes another program than the one that stands there. With LIST=FILE the answer of each program is written to FILE.
set -u
top=$(cd "$(dirname "${BASH_SOURCE[0]}")/.." && pwd)
folder=$(mktemp -d)
trap 'rm -rf "$folder"' EXIT
from=${1:-}
if [ -z "$from" ]; then
    archive=$(find /usr/src -path '*/gcc-[0-9]*/gcc-*.tar.xz' 2>/dev/null | sort | tail -n 1)
    [ -n "$archive" ] || { echo "skipped: no sources of gcc (Debian's gcc-12-source has them)"; exit 0; }
    tar -C "$folder" -xJf "$archive" --wildcards '*/gcc.c-torture/execute/*.c' || exit 1
    from=$(find "$folder" -type d -path '*/gcc.c-torture/execute')
fi
mkdir "$folder/out"
cd "$folder/out" || exit 1
# each SOURCE: its name, the way in which it is taken, or "none" and the first reason.
each() {
    local said
    if said=$("$top/creduce-prepare" "$1" "${1##*/}" 2>/dev/null); then
        sed -n 's/.* is made in way \([1-4]\),.*/way \1/p' <<<"$said"
    else
        sed -n 's/^It is not taken: [^:]*:[0-9]*: /none: /p' <<<"$said" | grep . || echo 'none: not preprocessed'
    fi | sed "s/^/${1##*/} /"
}
export -f each
export top
# shellcheck disable=SC2016 # that shell reads it
find "$from" -maxdepth 1 -name '*.c' -print0 | sort -z | xargs -0 -P "$(nproc)" -I '{}' bash -c 'each "$1"' each '{}' >all.txt
[ -z "${LIST:-}" ] || sort all.txt >"$LIST"
for way in 1 2 3 4; do echo "way $way: $(grep -c " way $way$" all.txt)"; done
echo "$(grep -c ' way [1-4]$' all.txt) of $(wc -l <all.txt) are taken"
