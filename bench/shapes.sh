#!/usr/bin/env bash
# What a file costs by what stands in it: files with large or many types, objects, labels, members and functions, each at a size and at
# twice and four times that size. Prints the processor's seconds and the peak of memory of one ruling, and how the time grows: the time at
# four times the size through the time at the size (4 is linear, 16 quadratic), with a mark where it grows faster than n log n. Then what loops
# take to their millionth step that initialise or copy large objects. By hand only: bench/shapes.sh [NAME..], by names of the tables.
# CREDUCE=PROGRAM takes another program than the launcher at the top; no ruling may take more than a minute.
set -u
. "$(dirname "${BASH_SOURCE[0]}")/reductions.sh"
begin_reductions 0

# list FROM TO FORMAT: the numbers from FROM to TO, each by the format, which may name it twice.
list() { awk -v from="$1" -v to="$2" -v format="$3" 'BEGIN { for (k = from; k <= to; k++) { line = format; gsub(/@/, k, line); gsub(/%/, k + 1, line); printf "%s\n", line } }'; }
main() { echo "int main(void){${1-}return 0;}"; }

object() { echo "int a[$1];"; main; }
uncalled() { list 1 "$1" 'void f@(void){int a[1000000];}'; main; }
typedefs() { list 1 "$1" 'typedef int t@[1000000-@];'; main; }
entered() { main "int i;for(i=0;i<$1;i++){char z[1000000];z[0]=1;}"; }
assigned() { echo 'struct s{int a[262144];};struct s x,y;'; main "int i;for(i=0;i<$1;i++)x=y;"; }
nested() { echo 'struct s0{int n;};'; list 0 "$1" 'struct s%{int n;struct s@ x[2];};'; main; }
chain() { echo 'typedef int t0;'; list 0 "$1" 'typedef t@*t%;'; main; }
arrays() { list 1 "$1" 'extern int(*p@)[@];'; main; }
structures() { list 1 "$1" 'struct s@{struct s%*p;};'; main; }
gotos() { echo 'int main(void){'; list 1 "$1" 'goto L@;L@:;'; echo 'return 0;}'; }
members() { echo 'struct s{'; list 1 "$1" 'int m@;'; echo '}x;int main(void){'; list 1 "$1" 'x.m@=0;'; echo 'return 0;}'; }
backwards() { echo 'int main(void){'; echo "goto L$1;L0:return 0;"; list 0 $(($1 - 1)) 'L%:goto L@;'; echo '}'; }
arguments() { echo 'int f('; list 1 $(($1 - 1)) 'int a@,'; echo "int a$1){return a$1;}int x;"; echo 'int main(void){return f('; list 1 $(($1 - 1)) 'x,'; echo 'x);}'; }
writes() { list 1 "$1" 'int x@;'; echo 'int f('; list 1 $(($1 - 1)) 'int a@,'; echo "int a$1){return 0;}"; echo 'int main(void){return f('; list 1 $(($1 - 1)) 'x@++,'; echo "x$1++);}"; }
prototypes() { list 1 "$1" 'int f(int);'; main; }
again() { list 1 "$1" 'int a;'; main; }
singles() { echo 'typedef int t0;'; list 0 "$1" 'typedef t@ t%[1];'; echo "t$1 x;"; main; }
constants() { echo 'enum{'; list 1 "$1" 'a@,'; echo 'z};'; main; }
calls() { list 1 "$1" 'int f@(int a){return a;}'; echo 'int main(void){'; list 1 "$1" 'f@(1);'; echo 'return 0;}'; }

# ruling: seconds of the processor and KB at the peak of one ruling on shape.c, or "-" where it was cut off.
ruling() {
    timeout 60 /usr/bin/time -o spent -f '%U %S %M' "$program" --limit 0 has:main shape.c >line 2>errors
    [ $? -ge 124 ] && { echo - -; return; }
    awk 'NF == 3 { print $1 + $2, $3 }' spent
}

echo "file            size   seconds      MB    size   seconds      MB    size   seconds      MB   growth"
while read -r name size; do
    [ $# -eq 0 ] || case " $* " in *" $name "*) ;; *) continue ;; esac
    row=$name
    for times in 1 2 4; do
        "$name" $((size * times)) >shape.c
        row="$row $((size * times)) $(ruling)"
    done
    echo "$row" | awk '{ printf "%-12s", $1; for (k = 2; k <= 8; k += 3) printf "%8d %9s %7s", $k, $(k + 1), $(k + 2) == "-" ? "-" : int($(k + 2) / 1024); print ($3 > 0 && $9 != "-") ? sprintf("%9.1f%s", $9 / $3, $9 > 0.2 && $9 / $3 > 4 * log(4 * $2) / log($2) * 1.25 ? " faster" : "") : "        -" }'
done <<'TABLE'
object 250000
uncalled 50
typedefs 5
entered 100
assigned 10
nested 4
chain 1000
arrays 4000
structures 4000
gotos 7500
backwards 7500
members 6000
arguments 10000
writes 4000
prototypes 10000
again 12500
singles 1000
constants 15000
calls 4000
TABLE

zeros() { echo 'int main(void){for(;;){char z[2000]={0};}}'; }
many_zeros() { echo 'int main(void){for(;;){char z[1000000]={0};}}'; }
copies() { echo 'struct s{char a[4000];}x,y;int main(void){for(;;)x=y;}'; }
texts() { awk 'BEGIN { printf "int main(void){for(;;){char z[]=\""; for (k = 0; k < 100000; k++) printf "a"; printf "\";}}\n" }'; }

# A loop ends with the case N1 at its last step; "-" is one that took longer than two minutes.
echo "loop           steps   seconds      MB"
while read -r name steps; do
    [ $# -eq 0 ] || case " $* " in *" $name "*) ;; *) continue ;; esac
    "$name" >shape.c
    row="- -"
    timeout 120 /usr/bin/time -o spent -f '%U %S %M' "$program" --steps "$steps" --limit 0 has:main shape.c >line 2>errors
    [ $? -ge 124 ] || row=$(awk 'NF == 3 { print $1 + $2, int($3 / 1024) }' spent)
    echo "$name $steps $row" | awk '{ printf "%-12s%8d %9s %7s\n", $1, $2, $3, $4 }'
done <<'TABLE'
zeros 1000000
many_zeros 1000000
copies 1000000
texts 10000
TABLE
