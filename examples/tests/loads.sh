#!/bin/sh
# Interesting while main's assembly text loads a value from a place in memory that has a name, and a compiler takes the file.
timeout 20 gcc -std=c11 -pedantic-errors -O2 -S structure.c -o loads.s || exit 1
grep -q '	movl	.*(%rip), %eax' loads.s
