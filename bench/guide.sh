#!/usr/bin/env bash
# Runs every command of docs/GUIDE.md, in order, in a folder of its own, and compares what it prints with what stands there, where
# "[..]" stands for any text. Commands behind a line "<!-- needs WORDS -->" are skipped where one of these programs isn't installed.
# By hand only: bench/guide.sh. CREDUCE=PROGRAM takes another program than the launcher at the top. It takes some minutes.
set -u
top=$(cd "$(dirname "${BASH_SOURCE[0]}")/.." && pwd)
export CREDUCE=${CREDUCE:-$top/creduce}
folder=$(mktemp -d)
trap 'rm -r "$folder"' EXIT
export CREDUCE_QUIET=1
"$CREDUCE" --limit 0 "has:;" gen:1:1 >/dev/null 2>&1 || true
mkdir "$folder/run" && cd "$folder/run" || exit 1
failed=0 passed=0 skipped=0 missing='' command='' wanted='' indent=''

# like TEXT WANTED: they are the same, but for what "[..]" stands for.
like() {
    local pattern
    pattern=$(printf '%s\n' "$2" | sed 's/[^[:alnum:] ]/\\&/g; s/\\\[\\\.\\\.\\\]/*/g')
    # shellcheck disable=SC2053 # a pattern
    [[ $1 == $pattern ]]
}

# Runs the command that was read last, in this shell, so that its folder and its functions stay.
try() {
    local found
    [ -n "$command" ] || return
    if [ -n "$missing" ]; then
        echo "skipped: $command ($missing is not installed)"
        skipped=$((skipped + 1))
    else
        found=${command//TOP\/creduce /\"\$CREDUCE\" }
        eval "${found//TOP/$top}" >"$folder/out.txt" 2>&1 </dev/null
        found=$(<"$folder/out.txt")
        if like "$found" "$wanted"; then
            echo "ok: $command"
            passed=$((passed + 1))
        else
            printf 'FAILED: %s\n--- wanted\n%s\n--- found\n%s\n---\n' "$command" "$wanted" "$found"
            failed=$((failed + 1))
        fi
    fi
    command='' wanted=''
}

# needs WORD..: sets missing to the first that isn't there.
needs() {
    missing=''
    for word; do command -v "$word" >/dev/null || { missing=$word && return; }; done
}

while IFS= read -r line <&3; do
    if [[ $line =~ ^(\ {4,})'$ '(.*)$ ]]; then
        try
        indent=${BASH_REMATCH[1]} command=${BASH_REMATCH[2]}
    elif [[ -n $command && $line == "$indent"* ]]; then
        wanted+=${wanted:+$'\n'}${line#"$indent"}
    else
        try
        # shellcheck disable=SC2086 # words
        if [[ $line =~ ^'<!-- needs '(.*)' -->'$ ]]; then needs ${BASH_REMATCH[1]}; fi
    fi
done 3<"$top/docs/GUIDE.md"
try
echo "$passed passed, $failed failed, $skipped skipped"
[ "$failed" = 0 ]
