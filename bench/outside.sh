#!/usr/bin/env bash
# Tries what stands around the proved program, situation by situation, on the program itself, and prints what it found: what is seen first and
# said with status 1, words, refusals, the trial folders, closed streams, names, kills, copies and their modes, progress, a full disk, and
# what a cut of the power leaves. By hand only: bench/outside.sh. CREDUCE=PROGRAM takes another program than the launcher at the top, of which
# bench/outside.sh tries what belongs to it. It takes about five minutes and wants gcc. Called by root it also tries what a user may not
# write, and a cut of the power on a disk that is a file; strace, where it is there, shows the order in which files come to the disk.
# shellcheck disable=SC2016 # conditions are evaluated where they are judged
set -u
top=$(cd "$(dirname "${BASH_SOURCE[0]}")/.." && pwd)
program=$(readlink -f "${CREDUCE:-$top/creduce}")
base=$(mktemp -d)
wrong=0 tried=0 number=0 status=0 out='' err=''
trap 'cd / && umount "$base"/*/on "$base"/*/cut 2>/dev/null; rm -rf "$base"' EXIT
chmod 755 "$base"

# fresh: a folder of its own for the next tries.
fresh() {
    number=$((number + 1))
    mkdir "$base/$number" && cd "$base/$number" || exit 1
    printf 'int f(void) { return 1; }\nint main(void) { return f(); }\n' >f.c
    printf '#!/bin/sh\ngrep -q main f.c\n' >t.sh
    chmod +x t.sh
}

# call WORD..: sets status, out and err.
call() {
    status=0
    timeout 300 "$program" "$@" >out.txt 2>err.txt </dev/null || status=$?
    out=$(<out.txt) err=$(<err.txt)
}

# is WHAT CONDITION: notes whether a condition holds.
is() {
    tried=$((tried + 1))
    if eval "$2"; then echo "ok: $1"; else wrong=$((wrong + 1)) && echo "FAILED: $1: status $status, output: ${out:0:300}, errors: ${err:0:300}"; fi
}

# within SECONDS CONDITION: waits until a condition holds, for so long at most.
within() {
    local left=$(($1 * 20))
    until eval "$2"; do
        left=$((left - 1))
        [ "$left" -gt 0 ] || return 1
        sleep 0.05
    done
}

says() { [[ $err == *"$1"* ]]; }
text='int f(void) { return 1; }
int main(void) { return f(); }'
lists() { printf 'int a%s;\n' $(seq 30); printf 'int main(void) { return 0; }\n'; }
unchanged() { [ "$(<f.c)" = "$text" ] && [ ! -e f.c.orig ] && [ ! -e f.c.log ]; }
kept() { [ "$(<f.c)" = "$text" ]; }
mode() { stat -c %a "$1"; }

# ---- what is seen first: status 1, one line, and nothing changed
fresh && call --limit 0 has:main f.c
fresh && mkdir d && call ./t.sh d
is 'FILE is a folder' '[ $status = 1 ] && says "creduce: d is a folder, and no file"'
mkfifo p && call ./t.sh p
is 'FILE is a pipe' '[ $status = 1 ] && says "creduce: p is a pipe, and no file"'
call ./t.sh /dev/null
is 'FILE is a device' '[ $status = 1 ] && says "is a device, and no file"'
call ./t.sh absent.c
is 'an absent FILE is status 3' '[ $status = 3 ] && [ "$out" = "creduce: no file absent.c" ]'
for ending in orig log best; do
    fresh && mkdir f.c.$ending && call ./t.sh f.c
    is "FILE.$ending is a folder" '[ $status = 1 ] && says "f.c.$ending is a folder" && says "move it away" && kept'
done
fresh && mkdir f.c.journal && call --journal has:main f.c
is 'FILE.journal is a folder' '[ $status = 1 ] && says "f.c.journal is a folder" && unchanged'
fresh && (ulimit -f 100 && "$program" has:main f.c >out.txt 2>err.txt </dev/null)
status=$? out=$(<out.txt) err=$(<err.txt)
is 'a limit on the length of files' '[ $status = 1 ] && says "a file may have at most 102400 bytes here (ulimit -f)" && unchanged'
fresh && echo 'a text of mine' >f.c.journal && call --resume has:main f.c
is 'a file of mine that is named FILE.journal' '[ $status = 1 ] && says "was begun by no run of creduce" && [ "$(<f.c.journal)" = "a text of mine" ] && unchanged'
call --journal has:main f.c
is '--journal beside it' '[ $status = 13 ] && [ "$(<f.c.journal)" = "a text of mine" ] && unchanged'

if [ "$(id -u)" = 0 ] && command -v setpriv >/dev/null; then
    # as_user WORD..: the same as nobody.
    as_user() {
        status=0
        setpriv --reuid 65534 --regid 65534 --clear-groups timeout 60 "$program" "$@" >out.txt 2>err.txt </dev/null || status=$?
        out=$(<out.txt) err=$(<err.txt)
    }
    fresh && chmod 777 . && chmod 644 f.c && as_user has:main f.c
    is "a FILE that its caller can't write" '[ $status = 1 ] && says "f.c can'"'"'t be written by you" && says "chmod u+w" && unchanged'
    fresh && mkdir closed && mv f.c closed/ && chmod 666 closed/f.c && as_user has:main closed/f.c
    is 'a folder that takes no new file' '[ $status = 1 ] && says "no file can be made in closed" && [ ! -e closed/f.c.orig ]'
    touch closed/f.c.orig closed/f.c.log && chmod 666 closed/f.c.* && printf '%s\n' "$text" >closed/f.c.orig && as_user has:main closed/f.c
    is 'the same, with a copy and a log that can be written' '[ $status = 0 ] && [ "$(<closed/f.c)" != "$text" ] && [ "$(<closed/f.c.orig)" = "$text" ]'
    fresh && mkdir closed && mv f.c t.sh closed/ && chmod 666 closed/f.c && cp closed/f.c closed/f.c.orig && touch closed/f.c.log && chmod 666 closed/f.c.* && cd closed && status=0
    setpriv --reuid 65534 --regid 65534 --clear-groups timeout 60 "$program" ./t.sh f.c >../out.txt 2>../err.txt </dev/null || status=$?
    out=$(<../out.txt) err=$(<../err.txt)
    is 'a folder in which no trial folder can be made' '[ $status = 1 ] && says "no folder can be made here" && kept'
    fresh && chmod 777 . && chmod 666 f.c && printf '#!/bin/sh\nmkdir d && touch d/x && ln -s ../../kept d/kept && chmod 555 d && grep -q main f.c\n' >t.sh && mkdir kept && touch kept/x && chmod 555 kept && chown 65534 kept && as_user --workers 1 ./t.sh f.c
    is 'a test that leaves a folder without leave to write' '[ $status = 0 ] && [ ! -e creduce-trial-0.1 ] && [ "$(mode kept)" = 555 ] && [ -e kept/x ]'
else
    echo "not tried: what a user may not write, since this isn't root"
fi

# ---- a test that can't be started: status 8, which says why, and nothing changed
fresh && call ./none.sh f.c
is 'TEST is absent' '[ $status = 8 ] && says "There is no ./none.sh" && kept'
mkdir folder.sh && call ./folder.sh f.c
is 'TEST is a folder' '[ $status = 8 ] && says "./folder.sh is a folder" && kept'
printf '#!/bin/sh\n' >locked.sh && call ./locked.sh f.c
is 'TEST may not be executed' '[ $status = 8 ] && says "chmod +x" && kept'
printf '#!/bin/sh\r\nexit 0\n' >crlf.sh && chmod +x crlf.sh && call ./crlf.sh f.c
is 'the first line of TEST ends with CR LF' '[ $status = 8 ] && says "CR LF" && kept'
call f.c ./t.sh
is 'TEST and FILE swapped' '[ $status -gt 1 ] && says "TEST comes first, then FILE" && says t.sh && kept'
call ./t.sh ./t.sh
is 'FILE is a script' '[ $status = 4 ] && says "TEST comes first, then FILE"'

# ---- words of other reducers, slips, and the help at any place
while IFS='|' read -r words wanted; do
    fresh
    # shellcheck disable=SC2086 # words are words
    call $words
    is "words: $words" '[ $status = 2 ] && says "$wanted" && unchanged'
done <<'WORDS'
-n 4 ./t.sh f.c|--workers 4 says that here
-j8 ./t.sh f.c|--workers 8 says that here
--n=2 ./t.sh f.c|--workers 2 says that here
--timeout 30 ./t.sh f.c|as timeout 30 gcc ..
--tidy ./t.sh f.c|nothing like it
--not-c ./t.sh f.c|nothing like it
--workres 2 ./t.sh f.c|did you mean --workers?
--workers 33 ./t.sh f.c|takes a number from 1 to 32
--reached L ./t.sh f.c|has its label in the same word
--reached=9a ./t.sh f.c|takes an identifier of C
--passes=vov ./t.sh f.c|letters of ltbusciprfv and o
./t.sh|here is only "./t.sh"
./t.sh f.c g.c|"g.c" is one more
WORDS
fresh && call ./t.sh f.c --help
is 'help stands behind other words too' '[ $status = 0 ] && [[ $out == *"USAGE"* ]] && unchanged'
call -h
is 'help by -h' '[ $status = 0 ] && [[ $out == *"USAGE"* ]]'
call --version
is '--version says which this is' '[[ $out == *"creduce 0.9.0"* ]]'
call --explain K40
is 'a number is explained' '[ $status = 0 ] && [[ $out == *"type 40 is K40"* ]]'

# ---- refusals: the name, the function, the token, and a remedy
while IFS='|' read -r wanted file; do
    fresh && printf '%b' "$file" >f.c && cp f.c whole.c && call ./t.sh f.c
    is "refusal: $wanted" '[ $status = 4 ] && says "$wanted" && cmp -s f.c whole.c && [ ! -e f.c.orig ]'
done <<'FILES'
nosuch isn't declared before line 2|int x;\nint main(void) { return nosuch; }\n
f is used in line 2, column 25, and the file doesn't define it|int f(void);\nint main(void) { return f(); }\n
strlen is a function of the library|int main(void) { return strlen(0); }\n
1.5 is no integer constant|int x = 1.5;\nint main(void) { return 0; }\n
a directive|#include <stdio.h>\nint main(void) { return 0; }\n
the byte 0xC3|int \0303\0244;\nint main(void) { return 0; }\n
`asm`|int main(void) { asm("nop"); return 0; }\n
`asm`|int main(void) { asm volatile ("nop"); return 0; }\n
unsigned long|int main(void) { __int128 x = 1; return 0; }\n
write the type itself|int main(void) { int x = 1; typeof(x) y = x; return y; }\n
`x` is no type that is declared before|int f(x) int x; { return x; }\nint main(void) { return f(0); }\n
a range of cases|int main(void) { switch (1) { case 1 ... 3:; } return 0; }\n
`__attribute__`|int f(void) __attribute__((pure));\nint main(void) { return 0; }\n
                       ^|int main(void) {\n    return 1 + 2 + 3 + x;\n}\n
FILES

# ---- a journal's words, and FILE changed since
fresh && call --journal has:main f.c
is 'a journal has its words beside it' '[ $status = 0 ] && head -n 1 f.c.journal-words | grep -qx "creduce journal 1" && grep -qx "test has:main" f.c.journal-words'
call --resume has:f f.c
is 'another TEST' '[ $status = 1 ] && says "f.c.journal was begun with TEST '"'has:main'"', and not '"'has:f'"'"'
call --resume --any-order has:main f.c
is 'another law' '[ $status = 1 ] && says "f.c.journal was begun without --any-order"'
call --resume --reached=L has:main f.c
is 'a label where there was none' '[ $status = 1 ] && says "f.c.journal was begun without --reached"'
call --resume has:main f.c
is 'the same words go on' '[ $status = 0 ]'
printf 'int main(void) { return 7; }\n' >f.c && call --resume has:main f.c
is 'FILE was changed since' '[ $status = 1 ] && [[ $out$err == *"creduce: changed since the journal: f.c"* ]] && [ "$(<f.c)" = "int main(void) { return 7; }" ]'
cp f.c.orig f.c && call --resume has:main f.c
is 'and goes on from the copy again' '[ $status = 0 ]'
fresh && printf 'int f(void) { return 1; }\nint main(void) { L: return f(); }\n' >f.c && call --journal --reached=L has:main f.c && last=$status && call --resume has:main f.c
is 'no label where there was one' '[ $last = 0 ] && [ $status = 1 ] && says "f.c.journal was begun with --reached=L"'
call --resume --reached=M has:main f.c
is 'another label' '[ $status = 1 ] && says "f.c.journal was begun with --reached=L"'
call --resume --reached=L has:main f.c
is 'the same label goes on' '[ $status = 0 ] && grep -q "L *:" f.c'
fresh && call --journal --limit 1 has:main f.c && cp f.c reached.c && last=$status && call --resume --limit 1 has:main f.c
is 'a run that came to its limit is gone on from: the same end' '[ $last = 7 ] && [ $status = 7 ] && cmp -s f.c reached.c'
call --resume has:main f.c
is 'with another limit: refused, or gone on with, and FILE stays whole' '[ $status = 13 ] && cmp -s f.c reached.c || [ $status = 0 ]'
printf '#!/bin/sh\nexec grep -q main f.c\n' >t.sh && rm -f f.c.* && printf '%s\n' "$text" >f.c && call --journal ./t.sh f.c && printf '#!/bin/sh\ngrep -q main f.c\n' >t.sh && call --resume ./t.sh f.c
is 'where TEST has other bytes that is said' '[ $status = 0 ] && says "TEST has other bytes"'
fresh && rm f.c && call --journal has:main f.c
is 'no words stay where no journal was begun' '[ $status = 3 ] && [ ! -e f.c.journal-words ]'

# ---- trial folders
cat >"$base/prints.sh" <<'TEST'
#!/bin/sh
gcc -Wall -Werror g.c -o x 2>/dev/null; ./x | grep -q hi
TEST
chmod +x "$base/prints.sh"
hello='int printf(const char *format, ...);
int x = 3;
int twice(int y) { return 2 * y; }
int main(void) { int z = twice(x); if (z == 6) printf("hi\n"); return 0; }'
for workers in 1 4; do
    fresh && printf '%s\n' "$hello" >g.c && call --workers $workers "$base/prints.sh" g.c
    is "a test that takes what an earlier one left, $workers workers" '[ $status = 0 ] && gcc -w g.c -o y 2>/dev/null && ./y | grep -q hi'
done
fresh && mkdir kept && echo kept >kept/kept
printf '#!/bin/sh\nln -s ../kept link; mkdir -p deep && ln -s ../../kept deep/link\ncase $(ls | wc -l) in 3) grep -q main f.c;; *) exit 1;; esac\n' >t.sh
call --workers 2 ./t.sh f.c
is 'links that a test leaves are not followed' '[ $status = 0 ] && [ "$(<kept/kept)" = kept ]'
fresh && mkdir kept && echo kept >kept/kept
printf '#!/bin/sh\nme=$(pwd); grep -q main f.c || exit 1; cd .. && mv "$me" "$me.$$" && ln -s kept "$me"\n' >t.sh
call --workers 1 ./t.sh f.c
is "a link in the folder's place goes" '[ $status = 0 ] && [ "$(<kept/kept)" = kept ] && [ "$(ls kept)" = kept ]'
fresh && printf '#!/bin/sh\ngrep -q main f.c || exit 1; me=$PWD; cd .. && rm -r "$me" && mkfifo "$me"\n' >t.sh && call --workers 1 ./t.sh f.c
is "so does a pipe" '[ $status = 0 ]'
fresh && printf '#!/bin/sh\ngrep -q main f.c || exit 1; mkfifo p; mkdir -p d/e; mkfifo d/e/p; ln -s /dev/zero d/z\n' >t.sh && call --workers 1 ./t.sh f.c
is "and so do pipes within it" '[ $status = 0 ]'
fresh && mkdir creduce-trial-1 && echo mine >creduce-trial-1/mine && call --workers 4 ./t.sh f.c
is 'a folder of that name that is mine' '[ $status = 1 ] && says "creduce-trial-1 isn'"'"'t creduce'"'"'s own" && [ "$(<creduce-trial-1/mine)" = mine ] && unchanged'
fresh && call --workers 1 ./t.sh f.c && printf '%s\n' "$text" >creduce-trial-0/f.c && call --workers 1 ./t.sh creduce-trial-0/f.c
is 'a FILE in a trial folder' '[ $status = 1 ] && says "creduce-trial-0/f.c is in creduce-trial-0, which is emptied" && [ "$(<creduce-trial-0/f.c)" = "$text" ]'
cp t.sh creduce-trial-0/ && call --workers 1 ./creduce-trial-0/t.sh f.c
is 'a TEST in a trial folder' '[ $status = 1 ] && says "creduce-trial-0/t.sh is in creduce-trial-0" && [ -e creduce-trial-0/t.sh ]'
fresh && mkdir kept && ln -s kept creduce-trial-0 && call --workers 1 ./t.sh f.c
is 'a link of that name' '[ $status = 1 ] && says "creduce-trial-0 isn'"'"'t creduce'"'"'s own" && unchanged'
fresh && mkdir -p other/creduce-trial-0 && cp f.c other/creduce-trial-0/
printf '#!/bin/sh\ngrep -q "f()" f.c\n' >t.sh
export CDPATH=$PWD/other
call --workers 1 ./t.sh f.c
unset CDPATH
is 'CDPATH leads nowhere else' '[ $status = 0 ] && grep -q "f()" f.c'
fresh && cp f.c g.c && printf '#!/bin/sh\nsleep 20\ngrep -q main g.c\n' >long.sh && chmod +x long.sh
"$program" --workers 1 ./long.sh g.c >second.txt 2>&1 </dev/null &
first=$!
within 5 'grep -q "reduces g.c" creduce-trial.lock 2>/dev/null' || sleep 1
call ./t.sh f.c
is 'a second run in a folder waits for 10 s, and is refused' '[ $status = 1 ] && says "another run uses the folders creduce-trial-K here (process $first reduces g.c)"'
call has:main f.c
is 'one that needs no folders runs' '[ $status = 0 ]'
false_ones=0 refused=0
for name in one two three four five; do
    mkdir -p $name/f $name/g && lists >$name/f/f.c && lists >$name/g/f.c
    printf '#!/bin/sh\nsleep 0.01\ngrep -q "a7;" f.c\n' >$name/f.sh
    printf '#!/bin/sh\nsleep 0.01\ngrep -q "a9;" f.c\n' >$name/g.sh
    chmod +x $name/*.sh
    (cd $name && exec timeout 60 "$program" ./f.sh f/f.c) >one.txt 2>&1 </dev/null &
    other=$!
    (cd $name && exec timeout 60 "$program" ./g.sh g/f.c) >two.txt 2>&1 </dev/null
    last=$?
    wait $other
    for ended in "$?" "$last"; do [ "$ended" = 0 ] || refused=$((refused + 1)); done
    grep -q 'a7;' $name/f/f.c && grep -q 'a9;' $name/g/f.c || false_ones=$((false_ones + 1))
done
is "two runs at once, five times: no false result ($refused of ten end otherwise than with 0)" '[ $false_ones = 0 ]'
kill -KILL $first
wait $first 2>/dev/null
call ./t.sh f.c
is 'after a kill the next run has the folders' '[ $status = 0 ]'

# ---- closed streams
fresh && status=0 && "$program" --journal has:main f.c >&- 2>err.txt </dev/null || status=$?
out='' err=$(<err.txt)
is 'standard output is closed' '[ $status = 10 ] && [ "$(od -An -N3 -tx1 f.c.journal)" = " 01 ff 03" ]'
fresh && status=0 && "$program" --journal has:main f.c <&- >out.txt 2>&- || status=$?
out=$(<out.txt) err=''
is 'standard input and error are closed' '[ $status = 0 ] && [ "$(od -An -N3 -tx1 f.c.journal)" = " 01 ff 03" ] && [ "$(<f.c.orig)" = "$text" ]'

# ---- names
fresh && mv f.c -- -f.c && call has:main -- -f.c
is 'a name that begins with a dash' '[ $status = 0 ] && [ -e ./-f.c.orig ]'
fresh && name=$'a\nb.c' && mv f.c "$name" && call --journal has:main "$name"
is 'a name with a new-line' '[ $status = 0 ] && [ "$(<"$name.orig")" = "$text" ]'
long=$(printf 'a%.0s' $(seq 248)).c
fresh && mv f.c "$long" && call has:main "$long"
is 'a name of 250 bytes' '[ $status = 0 ] && [ "$(<"$long.orig")" = "$text" ]'
fresh && mv f.c "a$long" && call has:main "a$long"
is 'a name of 251 bytes has no room for its copy' '[ $status = 1 ] && [ "$(<"a$long")" = "$text" ]'

fresh && printf 'int main(void) { return nosuch; }\n' >'-e1e touch hit.c' && call has:main -- '-e1e touch hit.c'
is 'a name that sed would take as a command' '[ $status = 4 ] && [ ! -e hit.c ]'
fresh && name=$'a\377.c' && mv f.c "$name" && call has:main "$name"
is "a name that isn't UTF-8: status 2, and nothing changed" '[ $status = 2 ] && [ "$(<"$name")" = "$text" ] && [ "$(ls | wc -l)" = 4 ]'
fresh && printf 'int main(void) { return \033]0;nosuch; }\n' >f.c && call has:main f.c
is 'what controls a terminal is not repeated' '[ $status = 4 ] && ! [[ $err == *$'"'"'\033'"'"'* ]]'

# ---- copies, modes, links
fresh && chmod 600 f.c && printf '#!/bin/sh\n[ "$(stat -c %%a f.c)" = 600 ] && grep -q main f.c\n' >t.sh && call --workers 1 ./t.sh f.c
is "FILE's mode is its copy's and its variants'" '[ $status = 0 ] && [ "$(mode f.c) $(mode f.c.orig)" = "600 600" ]'
fresh && ln -s f.c f.c.orig && call has:main f.c
is 'a FILE.orig that is a link to FILE' '[ $status = 0 ] && [ -L f.c.orig.1 ] && [ ! -L f.c.orig ] && [ "$(<f.c.orig)" = "$text" ]'
fresh && echo first >f.c.orig && call has:main f.c
is 'an older FILE.orig is kept' '[ $status = 0 ] && [ "$(<f.c.orig.1)" = first ] && says f.c.orig.1'
fresh && echo first >f.c.orig && call has:nothing f.c
is 'but not renamed by a run that is refused' '[ $status = 6 ] && [ "$(<f.c.orig)" = first ] && [ ! -e f.c.orig.1 ]'
fresh && mkdir real && mv f.c real/ && ln -s real/f.c f.c && call has:main f.c
is 'FILE is a link: its target has the result' '[ $status = 0 ] && [ -L f.c ] && [ "$(<f.c)" = "$(<real/f.c)" ] && [ "$(<f.c)" != "$text" ]'
fresh && ln f.c g.c && call has:main f.c
is 'FILE has two names: both have the result' '[ $status = 0 ] && cmp -s f.c g.c && [ "$(<f.c)" != "$text" ]'
fresh && mkdir creduce-best && mv f.c creduce-best/g.c && sed -i 's/f\.c/g.c/' t.sh && call ./t.sh creduce-best/g.c
is 'FILE may stand where the smallest once did' '[ $status = 0 ] && [ -s creduce-best/g.c ] && [ -e creduce-best/g.c.orig ]'
fresh && echo old >f.c.best && call ./t.sh f.c
is 'the smallest of an earlier run is kept' '[ $status = 0 ] && [ ! -e f.c.best ] && [ "$(<f.c.best.1)" = old ]'
fresh && mv f.c f.c.best && sed -i 's/f\.c/f.c.best/' t.sh && call ./t.sh f.c.best
is 'and may be given as FILE' '[ $status = 0 ] && [ "$(<f.c.best.orig)" = "$text" ]'

fresh && mkdir one two && cp f.c one/ && cp f.c two/ && printf '#!/bin/sh\ngrep -q main f.c || exit 1; sleep 0.2\n' >t.sh
(cd one && "$program" --workers 1 ../t.sh f.c >out.txt 2>&1 </dev/null) &
first=$!
(cd two && "$program" --workers 1 ../t.sh ../f.c >out.txt 2>&1 </dev/null)
wait $first
is 'the smallest of one run is no other one of the same name' '[ ! -e f.c.best ] && [ ! -e one/f.c.best ] && [ "$(<one/f.c)" = "$(<f.c)" ]'

# ---- ended from outside
fresh && printf '#!/bin/sh\ngrep -q main f.c || exit 1; timeout 60 sleep 47; echo late >late\n' >t.sh
"$program" --journal --workers 2 ./t.sh f.c >out.txt 2>err.txt </dev/null &
first=$!
within 10 'pgrep -x -f "sleep 47" >/dev/null'
kill -KILL $first
wait $first 2>/dev/null
status=$? out=$(<out.txt)
sleep 2.5
err=$(<err.txt)
is 'SIGKILL of the program: its tests end, and the watchman says so' '! pgrep -x -f "sleep 47" >/dev/null && says "creduce: ended from outside; f.c is as it was" && says "creduce --resume --workers 2 ./t.sh f.c" && [ $status = 137 ]'
printf '#!/bin/sh\ngrep -q main f.c\n' >t.sh
call --resume --workers 2 ./t.sh f.c
is 'no process of that run is left' '! grep -lszxF "PWD=$PWD/creduce-trial-0" /proc/[0-9]*/environ >/dev/null && [ -z "$(ls -d /proc/[0-9]*/cwd -l 2>/dev/null | grep -F -- "-> $PWD/creduce-trial")" ]'
is '--resume at once goes on' '[ $status = 0 ] && [ -z "$(find . -name late)" ]'
fresh && printf '#!/bin/sh\ngrep -q main f.c || exit 1; sleep 5\n' >t.sh
"$program" --journal ./t.sh f.c >out.txt 2>err.txt </dev/null &
first=$!
within 10 '[ -e creduce-trial-0/f.c ]'
kill -KILL $first
wait $first 2>/dev/null
status=$? out=$(<out.txt)
sleep 2.5
err=$(<err.txt)
is 'the words to go on with are those that were given' 'says "creduce: this goes on with it: creduce --resume ./t.sh f.c" && ! says --workers'
fresh && printf '#!/bin/sh\ngrep -q main f.c || exit 1; timeout 60 sleep 46; :\n' >t.sh
"$program" --workers 2 ./t.sh f.c >out.txt 2>err.txt </dev/null &
first=$!
within 10 'pgrep -x -f "sleep 46" >/dev/null'
kill -TERM $first
wait $first 2>/dev/null
status=$? out=$(<out.txt)
sleep 2.5
err=$(<err.txt)
is 'SIGTERM too' '! pgrep -x -f "sleep 46" >/dev/null && says "ended from outside" && [ $status = 143 ]'

# ---- a full disk, and the order in which files come to the disk
fresh && mkdir full
if mount -t tmpfs -o size=64k tmpfs full 2>/dev/null; then
    printf 'int main(void) { return 0; }\n/*%s*/\n' "$(head -c 20000 /dev/zero | tr '\0' 'x')" >full/f.c && cp full/f.c whole.c
    head -c 20000 /dev/zero >full/filling
    call has:main full/f.c
    is 'no room for the result: 9, and FILE as it was, or 0' '[ $status = 9 ] && cmp -s full/f.c whole.c || [ $status = 0 ]'
    rm -f full/f.c.* && cp whole.c full/f.c && head -c 40000 /dev/zero >full/filling
    call has:main full/f.c
    is 'no room for the copy: 9, and FILE as it was' '[ $status = 9 ] && cmp -s full/f.c whole.c'
    umount full
else
    echo "not tried: a full disk, since nothing could be mounted"
fi
if command -v strace >/dev/null; then
    fresh && strace -f -o calls.txt -e trace=fsync,rename,renameat,renameat2 "$program" has:main f.c >out.txt 2>err.txt </dev/null
    status=$? out=$(<out.txt) err=$(<err.txt)
    order=$(sed -n 's/^[0-9]* *\(fsync\|rename\)[a-z0-9]*(\(.*\)) *= 0$/\1 \2/p' calls.txt | sed 's/^fsync.*/fsync/; s/^rename.*, "\(.*\)"$/rename \1/' | tr '\n' ',')
    is "each file is on the disk before the next one is begun: $order" '[ $status = 0 ] && [[ $order == "fsync,rename f.c.orig,fsync,"* ]] && [[ $order == *"fsync,rename f.c,fsync,"* ]] && ! [[ $order == *"rename f.c,"*"rename f.c.orig"* ]]'
else
    echo "not tried: the order in which files come to the disk, since strace isn't there"
fi
# ---- a cut of the power: what the disk then has is a copy of the file that stands for it
mounted() { truncate -s 16M disk && mkfs.ext4 -q -F disk && mkdir on cut && mount -o loop disk on; }
# after_cut: mounts what a disk has now as cut.
after_cut() { cp disk copy && mount -o loop copy cut; }
fresh
if mounted 2>/dev/null; then
    for how in '' --journal --standing; do
        printf '%s\n' "$text" >on/f.c && sync -f on && rm -f on/f.c.*
        # shellcheck disable=SC2086 # no word where none is wanted
        call $how has:main "$PWD/on/f.c"
        after_cut
        is "a cut of the power behind the end ${how:-without a journal}" '[ $status = 0 ] && [ "$(<on/f.c)" != "$text" ] && cmp -s on/f.c cut/f.c && [ "$(<cut/f.c.orig)" = "$text" ] && cmp -s on/f.c.log cut/f.c.log'
        umount cut
    done
    lists >whole.c && printf '#!/bin/sh\nsleep 0.02\ngrep -q "a7;" f.c && grep -q "a9;" f.c\n' >t.sh
    cp whole.c on/f.c && sync -f on && rm -f on/f.c.* && call ./t.sh on/f.c
    cp on/f.c result.c && cp on/f.c.log result.log
    torn='' cuts=0 ends=0
    for number_of_cut in $(seq 20); do
        how=--journal && [ $((number_of_cut % 2)) = 0 ] || how=--standing
        rm -f on/f.c.* && cp whole.c on/f.c && sync -f on
        "$program" $how ./t.sh on/f.c >out.txt 2>err.txt </dev/null &
        first=$!
        sleep "$((RANDOM % 2)).$(printf %03d $((RANDOM % 1000)))"
        kill -STOP $first 2>/dev/null && cuts=$((cuts + 1)) || ends=$((ends + 1))
        after_cut
        kill -KILL $first 2>/dev/null
        wait $first 2>/dev/null
        cmp -s cut/f.c whole.c || cmp -s cut/f.c result.c || torn+=" FILE at cut $number_of_cut"
        [ ! -e cut/f.c.orig ] || cmp -s cut/f.c.orig whole.c || torn+=" FILE.orig at cut $number_of_cut"
        cmp -s cut/f.c whole.c || cmp -s cut/f.c.orig whole.c || torn+=" no original at cut $number_of_cut"
        if [ $how = --journal ]; then
            timeout 60 "$program" --resume ./t.sh cut/f.c >out.txt 2>err.txt </dev/null
            status=$? out=$(<out.txt) err=$(<err.txt)
            [ $status = 0 ] && cmp -s cut/f.c result.c && cmp -s cut/f.c.log result.log || torn+=" the resumed run at cut $number_of_cut"
        fi
        umount cut
    done
    is "$cuts cuts within a run, $ends behind its end: FILE whole, its copy whole, and --resume comes to the same end$torn" '[ -z "$torn" ]'
    umount on
else
    echo "not tried: a cut of the power, since no file system could be mounted from a file (root and a loop device are wanted)"
fi

# ---- progress
fresh && lists >f.c && printf '#!/bin/sh\nsleep 0.02\ngrep -q "a7;" f.c\n' >t.sh
if command -v script >/dev/null; then
    script -q -c "stty cols 40; exec '$program' ./t.sh f.c" screen.txt >/dev/null 2>&1 </dev/null
    widest=$(tr '\r' '\n' <screen.txt | sed 's/\x1b\[[0-9;]*[A-Za-z]//g' | grep -v '^Script' | grep -v ' size ' | awk '{ if (length($0) > most) most = length($0) } END { print most + 0 }')
    out="$widest columns"
    is "progress on a terminal of 40 columns ($widest used)" '[ "$widest" -gt 0 ] && [ "$widest" -le 40 ]'
fi
# It is advised behind 32 trials, so the test wants enough to be asked so often.
fresh && lists >f.c && printf '#!/bin/sh\nsleep 0.2\nfor k in 3 8 13 18 23 28; do grep -q "a$k;" f.c || exit 1; done\n' >t.sh && call --workers 4 ./t.sh f.c
is 'with a slow test --standing is advised, once' '[ $status = 0 ] && [ "$(grep -c "standing uses the workers better" err.txt)" = 1 ]'
lists >f.c && call --workers 4 --standing ./t.sh f.c
is 'not where it stands already' '[ $status = 0 ] && ! says "uses the workers better"'
lists >f.c && call --workers 1 --limit 60 ./t.sh f.c
is 'nor with one worker' '! says "uses the workers better"'
fresh && printf '#!/bin/sh\nsleep 70\ngrep -q main f.c\n' >t.sh
"$program" --workers 1 ./t.sh f.c >out.txt 2>err.txt </dev/null &
first=$!
sleep 64
status=0 out=$(<out.txt) err=$(<err.txt)
kill -TERM $first
wait $first 2>/dev/null
is 'elsewhere a line comes at least each minute, while a test runs too' '[ "$(grep -c . err.txt)" -ge 1 ]'

# ---- the start
if [ -x "$top/crates/creduce/out/creduce" ] || [ -n "${CREDUCE:-}" ]; then
    fresh
    begun=$(date +%s%N)
    for _ in $(seq 20); do "$program" --limit 0 has:main f.c >/dev/null 2>&1 </dev/null; done
    out="$((($(date +%s%N) - begun) / 20000)) us"
    is "a start with has:, --limit 0 and three files takes $out on average" true
fi
cd / && echo "$tried situations tried, $wrong of them wrong"
[ "$wrong" = 0 ]
