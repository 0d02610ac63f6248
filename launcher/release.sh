# The program that is handed out: release/creduce, which the gate linked, and release/RECORD, which says of what sources. It is taken exactly
# where both checksums are those of what stands there; nothing is proved or built for that, and no toolchain is wanted.
# shellcheck shell=bash disable=SC2154,SC2034 # the files beside it, and creduce, set and use its variables

record=$top/release/RECORD

# recorded WORD: what the record has under this word.
recorded() { sed -n "s/^$1 //p" "$record"; }

sum_of() { sha256sum <"$1" | cut -c 1-64; }

# The checksum of the list of checksums.
sum_of_sources() { (sums) | sha256sum | cut -c 1-64; }

# are_recorded: whether the sources are those of the record.
are_recorded() { [ -f "$record" ] && [ "$(sum_of_sources)" = "$(recorded sources)" ]; }

# The names of what the checksums are of, and of the folders of the crates: a file that comes or goes changes its folder.
places() {
    local -a folders
    cd "$top" && mapfile -t folders < <(needed | sed 's/ .*//; s|^|crates/|') &&
        find "${folders[@]}" \( -name out -o -name must-fail \) -prune -o \( -type d -o -name '*.rt' -o -name '*.antt' \) -print &&
        printf '%s\n' crates.txt HANDLES release/RECORD release/creduce
}

# is_released: where nothing has changed since the checksums were last compared, they aren't compared again.
is_released() {
    local kept
    [ -x "$top/release/creduce" ] && [ -f "$record" ] || return
    kept=$top/out
    { mkdir -p "$kept" && [ -w "$kept" ]; } 2>/dev/null || kept=${XDG_CACHE_HOME:-$HOME/.cache}/creduce${top//\//%}
    if [ -f "$kept/release.states" ] && times_of "$kept/release.places" 2>/dev/null | cmp -s - "$kept/release.states"; then return; fi
    # The states are those of before: what changes meanwhile is seen by the next call, and so is what changed in the last second.
    if { mkdir -p "$kept" && (places) >"$kept/release.places"; } 2>/dev/null; then times_of "$kept/release.places" >"$kept/release.states.part"; fi
    are_recorded && [ "$(sum_of "$top/release/creduce")" = "$(recorded program)" ] || return
    awk -v now="$(date +%s)" '$NF >= now - 1 { exit 1 }' "$kept/release.states.part" 2>/dev/null && mv "$kept/release.states.part" "$kept/release.states"
    say "this program was proved by $(recorded kit), of these very sources and not on this machine ($(recorded date), $(recorded gate));"
    say "creduce --prove proves and builds it here, and compares the bytes."
}

# proved_here: what is said of the program that was proved and built here beside the one that is handed out.
proved_here() {
    if ! are_recorded; then
        say "the program is proved and built here; release/creduce is of other sources"
    elif cmp -s "$program" "$top/release/creduce"; then
        say "the program is proved and built here, and is release/creduce byte for byte"
    else
        say "the program is proved and built here, and release/creduce has other bytes"
        return 1
    fi
}
