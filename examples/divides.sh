#!/bin/sh
# Interesting while the file still has a WIDTH and divides a sum by it. The variant lies in this folder, under the file's own name.
# Exit status 0 says that it is interesting; 126 and 127, that the test itself has failed; any other, that it is not interesting.
grep -q 'WIDTH = [1-9]' lines.c || exit 1
grep -q 'return sum() / WIDTH;' lines.c
