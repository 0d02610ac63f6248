#!/bin/sh
# As gcc_differs.sh, and gcc warns of nothing and its sanitizers say nothing: what a reducer needs that knows no C.
file=thermostat.c
../gcc_differs.sh || exit
timeout 20 gcc -std=c11 -pedantic-errors -Wall -Werror -O1 -g -fsanitize=address,undefined -fno-sanitize-recover=all $file -o checked || exit 1
timeout 10 ./checked >checked.txt 2>&1
