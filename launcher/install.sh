# creduce --install PREFIX: puts the program with all that belongs to it below PREFIX, from where any machine with the C library runs it.
# Each file is put beside its place and then renamed, so that a call meanwhile finds the old one or the new one.
# shellcheck shell=bash disable=SC2154 # the files beside it, and creduce, set its variables

# put MODE FROM TO: as TO below the prefix.
put() { mkdir -p "$prefix/${3%/*}" && install -m "$1" "$2" "$prefix/$3.part" && mv -f "$prefix/$3.part" "$prefix/$3"; }

# record_of PROGRAM: what is known of it, a line each.
record_of() {
    local commit
    echo 'creduce 0.9.0'
    if commit=$(git -C "$top" rev-parse HEAD 2>/dev/null); then echo "commit $commit$([ -z "$(git -C "$top" status --porcelain 2>/dev/null)" ] || echo ' changed')"; fi
    if [ "$1" = "$top/release/creduce" ]; then
        grep -v '^creduce ' "$record"
    else
        printf '%s\n' "kit $(rt version)" "gate proved where it was built" "date $(date -u -r "$1" +%F)" "program $(sum_of "$1")" "sources $(sum_of_sources)"
    fi
}

install_below() {
    local prefix=$1 file name
    prefix=$(mkdir -p "$prefix" && cd "$prefix" && pwd) && record_of "$program" >"$prefix/creduce.record.part" || return 1
    put 755 "$program" bin/creduce && put 644 "$prefix/creduce.record.part" bin/creduce.record && rm "$prefix/creduce.record.part" || return 1
    for name in creduce-new-test creduce-prepare creduce-report; do put 755 "$top/$name" "bin/$name" || return 1; done
    put 644 "$top/docs/creduce.1" share/man/man1/creduce.1 &&
        put 644 "$top/launcher/completion/creduce.bash" share/bash-completion/completions/creduce &&
        put 644 "$top/launcher/completion/_creduce" share/zsh/site-functions/_creduce || return 1
    for file in "$top"/include/*.h "$top"/docs/*.md "$top/README.md"; do put 644 "$file" "share/creduce/${file#"$top"/}" || return 1; done
    while IFS= read -r file; do
        put "$(stat -c %a "$top/examples/$file")" "$top/examples/$file" "share/creduce/examples/$file" || return 1
    done < <(cd "$top/examples" && find . -type f | sed 's|^\./||')
    say "installed below $prefix; ${prefix/#$HOME/\~}/bin is to stand in PATH before another program of this name"
    version "$prefix/bin/creduce" "$(<"$prefix/bin/creduce.record")"
}

# version PROGRAM RECORD: the record, and whether the program is the recorded one.
version() {
    printf '%s\n' "$2"
    [ "$(sum_of "$1")" = "$(sed -n 's/^program //p' <<<"$2")" ] || { say "this program isn't the recorded one"; return 1; }
}
