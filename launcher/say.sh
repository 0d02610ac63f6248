# What is said to a person goes to standard error; standard output is the program's.
# shellcheck shell=bash disable=SC2154,SC2034 # the files beside it, and creduce, set and use its variables

say() { echo "creduce: $*" >&2; }

took() { if [ "$1" -lt 60 ]; then echo "$1 s"; else echo "$(($1 / 60)) min $(($1 % 60)) s"; fi; }

# The help text, and where this creduce stands.
help() { cat "$top/launcher/help.txt" && printf '\nThese stand in %s\n' "$top"; }
