#!/bin/sh
# Interesting while gcc's -O0 and -O2 differ, with printf as the library has it. It asks nothing else, so it can't tell a fault of gcc from one
# of the file.
file=overflow.c
echo 'int printf(const char *format, ...);' >printf.h
timeout 20 gcc -std=c11 -pedantic-errors -include ./printf.h -Werror=format -O0 $file -o plain && timeout 5 ./plain >plain.txt || exit 1
timeout 20 gcc -std=c11 -O2 $file -o fast && timeout 5 ./fast >fast.txt || exit 1
! cmp -s plain.txt fast.txt
