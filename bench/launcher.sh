#!/usr/bin/env bash
# Tries the launcher, creduce-new-test and creduce-report beside a stand-in for the program, so that nothing is proved or built: what is
# answered before a build, and that it becomes the program. By hand only: bench/launcher.sh. It takes seconds.
set -u
repository=$(cd "$(dirname "${BASH_SOURCE[0]}")/.." && pwd)
folder=$(mktemp -d)
trap 'rm -r "$folder"' EXIT
failed=0

# A top of its own: the launcher and the docs, one crate, and a program that says what the file "says" holds and ends with the status of "status".
top=$folder/top
mkdir -p "$top/crates/creduce/src" "$top/crates/creduce/out" "$folder/work"
cp -r "$repository/README.md" "$repository/creduce" "$repository/launcher" "$repository/docs" "$repository/examples" "$repository/include" "$repository"/creduce-* "$top/"
echo 'creduce:' >"$top/crates.txt"
echo 'Handles allowed: none.' >"$top/HANDLES"
echo '//! A crate.' >"$top/crates/creduce/src/main.rt"
program=$top/crates/creduce/out/creduce
cat >"$program" <<'STANDIN'
#!/bin/sh
echo "$*" >words.txt
cat says
exit "$(cat status)"
STANDIN
chmod +x "$program"
cd "$folder/work" || exit 1

# placed: as if the launcher had built the program of what stands there.
placed() (
    . "$top/launcher/built.sh"
    (sums) >"$folder/sums" && cut -c 67- "$folder/sums" >"$folder/files" && (times_of "$folder/files") >"$folder/times" && stamp "$folder/sums" "$folder/times"
)

# program STATUS LINE: what the stand-in does.
program() { echo "$1" >status && printf '%s\n' "$2" >says; }

# call WORD..: the launcher where no toolchain is, so that it can't build; sets status, out and err.
call() {
    status=0
    PATH=/usr/bin:/bin "$top/creduce" "$@" >out.txt 2>err.txt </dev/null || status=$?
    out=$(<out.txt) err=$(<err.txt)
}

# is WHAT CONDITION..: notes whether a command ends well.
is() {
    local what=$1
    shift
    if "$@"; then echo "ok: $what"; else echo "FAILED: $what: status $status, output: $out, errors: $err"; failed=1; fi
}

# shellcheck disable=SC2317 # is calls them
says() { [[ $err == *"$1"* ]]; }
# shellcheck disable=SC2317
ended() { [ "$status" = "$1" ]; }

# shellcheck disable=SC2034 # it is named within eval
usage='creduce: usage: creduce [--workers N] [--window N] [--limit N] [--steps N] [--passes LETTERS] TEST FILE'
program 0 'f.c size 9 to 9 accepted 0 turns 0 fixed'
for word in --help -h './t.sh f.c --help'; do
    # shellcheck disable=SC2086 # several words
    call $word
    is "$word answers before a build" [ "$status$err" = 0 ]
done
is "the help has the options and statuses" grep -q -e '--passes LETTERS' out.txt
call
is "without words the usage line is put, and the help beside it" eval 'ended 2 && [ "$out" = "$usage" ] && says "--passes LETTERS"'
is "without the program a call says where the toolchain comes from" eval 'call has:x f.c; ended 127 && says "Rattle toolchain"'
placed
printf 'int main(){}\n' >f.c
call has:main f.c
is "a placed program runs, with its words and its line" eval 'ended 0 && [ "$out" = "$(cat says)" ] && [ "$(cat words.txt)" = "has:main f.c" ]'
touch "$top/crates/creduce/src/main.rt"
is "a source that was touched is taken as the same" eval 'call has:main f.c; ended 0'
echo '//! Another crate.' >"$top/crates/creduce/src/main.rt"
is "a source that was edited isn't" eval 'call has:main f.c; ended 127'
placed
echo >>"$program"
is "nor is a program that was replaced" eval 'call has:main f.c; ended 127'
placed

# A program that is handed out, with its record; the one that was built here goes aside.
mkdir "$top/release" && cp "$repository/release/renew" "$top/release/" && mv "$program" "$top/release/creduce"
printf '%s\n' 'creduce 1.0' 'kit a kit' 'gate 9 passed, 0 failed' 'date 2026-01-31' "program $(sha256sum <"$top/release/creduce" | cut -c 1-64)" \
    "sources $("$top/release/renew" --sources)" >"$top/release/RECORD"
is "a program that is handed out is taken where both checksums are right" eval 'call has:main f.c; ended 0 && says "was proved by a kit, of these very sources and not on this machine"'
sleep 2
call has:main f.c
call has:main f.c
is "which is said once" eval 'ended 0 && [ -z "$err" ]'
is "--version has the record" eval 'call --version; ended 0 && grep -qx "gate 9 passed, 0 failed" out.txt'
echo '//! Another crate?' >"$top/crates/creduce/src/main.rt"
is "not where a source was edited" eval 'call has:main f.c; ended 127'
touch -d 2020-01-01 "$top/crates/creduce/src/main.rt"
echo '//! Another crate.' >"$top/crates/creduce/src/main.rt" && touch -d 2020-01-01 "$top/crates/creduce/src/main.rt"
is "but where it has its bytes again" eval 'call has:main f.c; ended 0'
sleep 2
call has:main f.c
echo '//! Another crate!' >"$top/crates/creduce/src/main.rt" && touch -d 2020-01-01 "$top/crates/creduce/src/main.rt"
is "nor where one was edited to the same size and time" eval 'call has:main f.c; ended 127'
echo '//! Another crate.' >"$top/crates/creduce/src/main.rt"
sleep 2
call has:main f.c
touch "$top/crates/creduce/src/more.rt"
is "nor where one was added" eval 'call has:main f.c; ended 127'
rm "$top/crates/creduce/src/more.rt"
is "but where it is gone again" eval 'call has:main f.c; ended 0'
"$top/release/renew" --check >check.txt 2>&1
is "the gate fails where it has built other bytes of the recorded sources" [ $? = 1 ]
cp "$top/release/creduce" "$program"
is "and passes where these are the bytes" eval '"$top/release/renew" --check >check.txt && grep -q "is what was built" check.txt'
rm "$program"
echo >>"$top/release/creduce"
is "nor where the program isn't the recorded one" eval 'call has:main f.c; ended 127'
sed -i 's/^sources .*/sources 0/' "$top/release/RECORD"
is "the gate tells where the record is of older sources" eval '"$top/release/renew" --check >check.txt && grep -q "of older sources" check.txt'
mv "$top/release/creduce" "$program" && rm -r "$top/release"
placed
call --install "$folder/prefix"
is "--install puts the program and what belongs to it" eval 'ended 0 && cmp -s "$program" "$folder/prefix/bin/creduce" && [ -f "$folder/prefix/share/man/man1/creduce.1" ] && [ -f "$folder/prefix/share/creduce/README.md" ]'
is "and the record says whether it is the recorded one" eval '[ "$(sed -n "s/^program //p" "$folder/prefix/bin/creduce.record")" = "$(sha256sum <"$program" | cut -c 1-64)" ]'
is "and what belongs to it is found from there" eval '"$folder/prefix/bin/creduce-new-test" 2>&1 | grep -q missed-optimisation'
cp -r "$folder/prefix/share/creduce/examples/tests/." .
is "and names the program beside it" eval '"$folder/prefix/bin/creduce-new-test" crash rotate.c bad="../faulty/crashing-cc -O2" good=gcc message="error: in expand_switch" test=mine.sh | grep -q "^Now: $folder/prefix/bin/creduce ./mine.sh"'

is "it becomes the program: the status is the program's" eval 'program 6 "creduce: the test says no to f.c"; call has:x f.c; ended 6'
sh -c 'exec "$@"' sh "$top/creduce" has:main f.c >&- 2>err.txt </dev/null
status=$? out='' err=$(<err.txt)
is "with a closed output it starts the program all the same" eval '[ "$(cat words.txt)" = "has:main f.c" ]'

program 0 'a report'
"$top/creduce-report" f.c.log --svg p.svg >out.txt 2>err.txt
status=$? out=$(<out.txt) err=$(<err.txt)
is "creduce-report hands its words on" eval 'ended 0 && [ "$out" = "a report" ] && [ "$(cat words.txt)" = "--report f.c.log --svg p.svg" ]'

is "the manual page is made of the help text" eval '"$top/launcher/manual.sh" | cmp -s - "$repository/docs/creduce.1"'
cd "$repository" && { ! command -v shellcheck >/dev/null || shellcheck -x creduce creduce-* release/renew launcher/*.sh examples/*.sh examples/*/*.sh || failed=1; }
exit $failed
