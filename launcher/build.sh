# The first build: all crates of the program are proved, and it is built, in a folder of the launcher's (out/build).
#
# `rt ci` does it, as the gate: it proves the longest chain first and keeps what passed beside the toolchain, so that after the gate, or
# where another checkout was built, this takes seconds. Where nothing can be kept there, a call that was stopped would begin anew; then
# `rt all check` does it, which keeps what it proved in that folder. There is no way round the proofs.
# shellcheck shell=bash disable=SC2154,SC2034,SC2094 # the files beside it, and creduce, set and use its variables

folder=$top/out/build
log=$top/out/build.log

# How many crates are proved side by side: one for each processor, and for each 3 GB of memory that is free.
most() {
    local processors gigabytes
    processors=$(nproc 2>/dev/null || echo 1)
    gigabytes=$(awk '/^MemAvailable:/ { print int($2 / 3145728) }' /proc/meminfo 2>/dev/null)
    [ "${gigabytes:-0}" -lt "$processors" ] && processors=${gigabytes:-1}
    [ "$processors" -lt 1 ] && processors=1
    echo "$processors"
}

# The folder as the toolchain wants it, with the crates as they stand now; what earlier calls proved in it stays.
fill() {
    local name
    local -a names
    mkdir -p "$folder/.git" "$folder/crates" && mapfile -t names < <(needed | sed 's/ .*//') && [ "${#names[@]}" -gt 0 ] || return 1
    for name in "$folder"/crates/*; do
        if [ -d "$top/crates/${name##*/}" ]; then find "$name" -mindepth 1 -maxdepth 1 ! -name out -exec rm -rf {} +; else rm -rf "$name"; fi
    done
    cp "$top/HANDLES" "$folder/" && (cd "$top/crates" && tar cf - --exclude=out --exclude=must-fail "${names[@]}") | tar xf - -C "$folder/crates" &&
        grep -E "^($(IFS='|' && echo "${names[*]}"))[: ]" "$top/crates.txt" >"$folder/crates.txt"
}

# Where `rt ci` keeps what passed, and whether it can.
keeps() {
    local kept
    kept=$(dirname "$(dirname "$(dirname "$(readlink -f "$(command -v rt)")")")")/rattle-kept
    mkdir -p "$kept" 2>/dev/null && [ -w "$kept" ]
}

prove() {
    cd "$folder" || return 1
    if keeps; then exec rt ci; fi
    rt all check --jobs "$(most)" && cd crates/creduce || return 1
    # Without words the program ends with status 2, so the file alone shows that it was built.
    rm -f out/creduce
    rt run
    [ -x out/creduce ]
}

# ended NAME HOW: a crate is proved, or was kept, which the log may say more than once.
ended() {
    [ -z "${known[$1]:-}" ] || return 0
    known[$1]=$2 left=$((left - 1))
    [ "$2" = kept ] || say "$1 is proved, after $(took $((SECONDS - began))); $left of $crates crates are left"
}

# follow PID: says what the log tells until that process ends.
follow() {
    local line rest=''
    local is_well='^rt: ([a-z_0-9]+) (proved|is kept|(passed|is proved).*)' is_not='^rt: ([a-z_0-9]+).* NOT PROVED'
    exec 8<"$log"
    while :; do
        kill -0 "$1" 2>/dev/null || rest=last
        while IFS= read -r line <&8; do
            if [[ $line =~ $is_not ]]; then say "${BASH_REMATCH[1]} was NOT PROVED"; fi
            if [[ $line =~ $is_well ]]; then ended "${BASH_REMATCH[1]}" "${BASH_REMATCH[2]#is }"; fi
        done
        [ -z "$rest" ] || break
        sleep 1
    done
    exec 8<&-
}

# Builds the program, or waits for another call that does. The run is a process group of its own, so that all of it ends with this one.
build() {
    local pid status
    command -v rt >/dev/null || {
        say "the program isn't built yet, and the Rattle toolchain, which proves and builds it, isn't in PATH."
        say "Unpack the Rattle kit, put its folder bin in PATH, so that 'rt version' answers, and call again."
        exit 127
    }
    if ! mkdir -p "$folder" "${program%/*}" 2>/dev/null || [ ! -w "$folder" ] || [ ! -w "${program%/*}" ]; then
        say "the program isn't built yet, and $top can't be written by you: have its owner call creduce once, or use a copy of your own."
        exit 1
    fi
    exec 9>"$top/out/lock"
    if ! flock -n 9; then
        say "another call builds the program: this one waits for it ($log has what it does)"
        flock 9
        if is_built; then exec 9>&- && return 0; fi
    fi
    # The sums and times are those of before: what is edited meanwhile is seen by the next call.
    if ! { (sums) >"$folder/sums" && cut -c 67- "$folder/sums" >"$folder/files" && (times_of "$folder/files") >"$folder/times" && fill; }; then
        say "the crates can't be copied to $folder"
        exit 1
    fi
    declare -gA known=()
    began=$SECONDS crates=$(wc -l <"$folder/crates.txt") left=$crates
    say "the program isn't built yet. All of its $crates crates are proved for that, once; if you stop this, the next call goes on from there."
    say "That takes an hour or two of processor time, less what was proved on this machine before; $(most) are proved at once."
    : >"$log"
    set -m
    PYTHONUNBUFFERED=1 prove >"$log" 2>&1 </dev/null &
    pid=$!
    trap 'kill -TERM -- "-$pid" 2>/dev/null; say "stopped; the next call goes on from there"; exit 130' INT TERM HUP
    follow "$pid"
    wait "$pid"
    status=$?
    trap - INT TERM HUP
    set +m
    take "$status" || { say "the program was not built: $log says why"; tail -n 3 "$log" >&2; exit 1; }
    say "the program is built, in $(took $((SECONDS - began)))"
    exec 9>&-
}

# take STATUS: puts the program in its place, if all went well, with the stamp of what it was built of.
take() {
    [ "$1" = 0 ] && [ -x "$folder/crates/creduce/out/creduce" ] || return 1
    mv "$folder/crates/creduce/out/creduce" "$program" && stamp "$folder/sums" "$folder/times" || return 1
    keeps && rm -rf "$folder"
    return 0
}
