#!/bin/sh
# Interesting while a compiler makes a program of the file, sees nothing undefined in its run, and the file still shifts the seed. The
# variant lies in this folder, under the file's own name.
# Exit status 0 says that it is interesting; 126 and 127, that the test itself has failed; any other, that it is not interesting.
timeout 20 cc -std=c11 -pedantic-errors -O1 -Werror -Wreturn-type -Wuninitialized -fsanitize=undefined lines.c -o program || exit 1
timeout 10 ./program 2>errors.txt
[ $? != 124 ] && [ ! -s errors.txt ] && grep -q 'seed >> 16;' lines.c
