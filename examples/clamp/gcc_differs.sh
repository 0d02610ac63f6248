#!/bin/sh
# Interesting while gcc -O1 makes a program that prints something else than that of gcc -O0, which prints what clang's two print.
# The variant lies in this folder, under the file's own name.
file=thermostat.c
for tool in timeout gcc clang; do command -v $tool >/dev/null || exit 127; done # 127: the test itself has failed
build() { timeout 20 "$1" -std=c11 -w "$2" $file -o program && timeout 5 ./program >"$3"; }
build gcc -O0 plain.txt && build gcc -O1 fast.txt || exit 1
cmp -s plain.txt fast.txt && exit 1
build clang -O0 other.txt && cmp -s plain.txt other.txt || exit 1
build clang -O1 other.txt && cmp -s plain.txt other.txt
