# Whether the program that stands there was built of the sources as they are: by their sizes and times, which takes some milliseconds, and
# where these differ by checksums.
# shellcheck shell=bash disable=SC2154,SC2034 # the files beside it, and creduce, set and use its variables

# The crates of the program, each behind those it stands on, with these on its line.
needed() {
    awk 'function visit(name, list, count, k, line) {
             if (!(name in below) || seen[name]++) return
             count = split(below[name], list, " ")
             line = name
             for (k = 1; k <= count; k++) if (list[k] in below) { visit(list[k]); line = line " " list[k] }
             print line
         }
         { sub(/#.*/, "") }
         /:/ { name = $1; sub(/:.*/, "", name); rest = $0; sub(/^[^:]*:/, "", rest); below[name] = rest }
         END { visit("creduce") }' "$top/crates.txt"
}

# Checksums of all that a build reads, of the program's own crates alone.
sums() {
    local -a folders
    cd "$top" && mapfile -t folders < <(needed | sed 's/ .*//; s|^|crates/|')
    { printf 'crates.txt\0HANDLES\0' && find "${folders[@]}" \( -name out -o -name must-fail \) -prune -o -type f \( -name '*.rt' -o -name '*.antt' \) -print0; } |
        LC_ALL=C sort -z | xargs -0 sha256sum
}

# Sizes, numbers and times of the files of a list, and the time of each one's last change, which can't be set by hand. A file that was added
# since isn't among them, but what makes use of it is.
times_of() { (cd "$top" && xargs -d '\n' -s 1000000 -a "$1" stat -c '%n %s %i %.Y %.Z'); }

# Beside the program stand the checksums of its sources and its own (.sums), the names of these files (.files), and their sizes and times
# (.times).
is_built() {
    [ -x "$program" ] && [ -f "$program.sums" ] || return 1
    (times_of "$program.files" 2>/dev/null) | cmp -s - "$program.times" && return
    { sums && sum_of_program; } | cmp -s - "$program.sums" || return 1
    # The times are kept for the next call, where this tree can be written.
    (times_of "$program.files") 2>/dev/null >"$program.times" || true
}

# stamp SUMS TIMES: puts these, of the sources, and the program's own beside it.
stamp() {
    (cat "$1" && sum_of_program) >"$program.sums" && cut -c 67- "$program.sums" >"$program.files" &&
        (cat "$2" && cd "$top" && stat -c '%n %s %i %.Y %.Z' -- "${program#"$top/"}") >"$program.times"
}

sum_of_program() { cd "$top" && sha256sum "${program#"$top/"}"; }
