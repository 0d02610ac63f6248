#!/usr/bin/env bash
# What creduce says of files and words as people bring them, one after the other, for a stranger's eye: bench/said.sh [PROGRAM] | less
# It judges nothing: tests_words compares the texts.
set -u
top=$(cd "$(dirname "$(readlink -f "${BASH_SOURCE[0]}")")/.." && pwd)
program=$(readlink -f "${1:-$top/creduce}")
work=$(mktemp -d) && trap 'rm -rf "$work"' EXIT
cd "$work" || exit 1
unset CREDUCE_QUIET

# file NAME: what is said of the file on standard input.
file() {
    cat >"$1"
    printf -- '--- %s: %s\n' "$1" "$(head -c 200 "$1" | tr '\n' '/')"
    timeout 20 "$program" --limit 0 has:main "$1" 2>&1
    echo "[status $?]"
}

# words WORD..: what is said of these words.
words() {
    printf -- '--- creduce %s\n' "$*"
    timeout 20 "$program" "$@" >said.txt 2>&1 </dev/null
    set -- $?
    head -n 12 said.txt
    echo "[status $1]"
}

printf '%s\n' '#!/bin/sh' 'grep -q main f.c' >t.sh && chmod +x t.sh
echo 'int main(void) { return 0; }' >f.c

file asm1.c <<< 'int main(void) { __asm__ volatile ("nop" ::: "memory"); return 0; }'
file asm2.c <<< 'int x asm("y"); int main(void) { return 0; }'
file i128.c <<< 'unsigned __int128 f(unsigned __int128 a) { return a; } int main(void) { return 0; }'
file i128b.c <<< 'typedef __int128 big; int main(void) { return 0; }'
file typeof.c <<< 'int main(void) { int x = 1; __typeof__(x) y = x; return y; }'
file auto.c <<< 'int main(void) { __auto_type y = 1; return y; }'
file kr.c <<< $'int f(a, b)\n  int a;\n  char *b;\n{ return a; }\nint main(void) { return 0; }'
file kr2.c <<< $'f(a) { return a; }\nint main(void) { return 0; }'
file range.c <<< 'int main(void) { switch (1) { case 1 ... 3: return 1; } return 0; }'
file attr.c <<< 'static int __attribute__((noinline)) f(void) { return 1; } int main(void) { return f(); }'
file attr2.c <<< 'struct s { int x; } __attribute__((packed)); int main(void) { return 0; }'
file ext.c <<< '__extension__ typedef long long ll; int main(void) { return 0; }'
file stmtexpr.c <<< 'int main(void) { int x = ({ int y = 1; y; }); return x; }'
file nested.c <<< 'int main(void) { int g(int a) { return a; } return g(1); }'
file label.c <<< 'int main(void) { static void *t[] = { &&a, &&b }; goto *t[0]; a: return 1; b: return 2; }'
file elvis.c <<< 'int main(void) { int x = 1; return x ?: 2; }'
file empty.c <<< 'struct s { }; int main(void) { return 0; }'
file emptyi.c <<< 'int main(void) { int a[2] = {}; return 0; }'
file zeroarr.c <<< 'int a[0]; int main(void) { return 0; }'
file float.c <<< 'int main(void) { double d = 1.0; return d; }'
file float2.c <<< 'int main(void) { return (int)1e3f; }'
file union.c <<< 'union u { int a; char b; }; int main(void) { return 0; }'
file desig.c <<< 'struct s { int a; } x = { .a = 1 }; int main(void) { return 0; }'
file complit.c <<< 'struct s { int a; }; int f(struct s *p) { return p->a; } int main(void) { return f(&(struct s){ 1 }); }'
file fptr.c <<< 'int f(void) { return 1; } int main(void) { int (*p)(void) = f; return (*p)(); }'
file bitf.c <<< 'struct s { unsigned a : 3; }; int main(void) { return 0; }'
file vararg.c <<< '#include <stdarg.h>
int main(void) { return 0; }'
file vararg2.c <<< 'int f(int n, ...) { return n; } int main(void) { return f(1); }'
file valist.c <<< 'int f(int n, __builtin_va_list ap) { return n; } int main(void) { return 0; }'
file inc.c <<< $'# 1 "x.c"\n#include <stdio.h>\nint main(void) { printf("hi\\n"); return 0; }'
file def.c <<< $'#define N 3\nint main(void) { return N; }'
file name.c <<< $'int main(void) {\n\tint x = 1;\n\treturn x + undefined_name;\n}'
file strlen.c <<< 'int main(void) { return strlen("abc"); }'
file malloc.c <<< 'void *malloc(unsigned long); int main(void) { int *p = malloc(4); return !p; }'
file malloc2.c <<< 'int main(void) { int *p = malloc(4); return !p; }'
file printf.c <<< 'int main(void) { printf("hi"); return 0; }'
file puts.c <<< 'int puts(const char *s); int main(void) { puts("hi"); return 0; }'
file k40.c <<< 'int f(void); int g(void) { return f(); } int main(void) { return g(); }'
file k40b.c <<< 'extern int x; int main(void) { return x; }'
file k40c.c <<< 'int f(void) { return 1; }'
file k40d.c <<< 'void main(void) { }'
file k40e.c <<< 'int main(int argc, char *argv) { return 0; }'
file bool.c <<< 'bool f(void) { return true; } int main(void) { return 0; }'
file u8.c <<< 'uint8_t x; int main(void) { return 0; }'
file sizet.c <<< 'int main(void) { size_t n = 1; return n; }'
file wide.c <<< 'int main(void) { return sizeof L"ab"; }'
file bom.c <<< $'\xEF\xBB\xBFint main(void) { return 0; }'
file crlf.c <<< $'int main(void) {\r\n return 0; }\r'
file dollar.c <<< 'int a$b; int main(void) { return 0; }'
file bin.c <<< 'int main(void) { return 0b101; }'
file oct.c <<< 'int main(void) { return 099; }'
file big.c <<< 'int main(void) { return 99999999999999999999; }'
file chr.c <<< "int main(void) { return 'ab'; }"
file chr2.c <<< "int main(void) { return ''; }"
file esc.c <<< 'char *s = "\e[0m"; int main(void) { return 0; }'
file cont.c <<< $'int main(void) { return 1 + \\\n 2; }'
file comment.c <<< 'int main(void) { return 0; } /* no end'
file str.c <<< 'char *s = "no end; int main(void) { return 0; }'
file missing.c <<< 'int main(void) { return 0;'
file semi.c <<< $'int main(void) {\n  int x = 1\n  return x;\n}'
file twice.c <<< 'int main(void) { int x; int x; return 0; }'
file thread.c <<< '__thread int x; int main(void) { return 0; }'
file thread2.c <<< '_Thread_local int x; int main(void) { return 0; }'
file u12.c <<< 'int main(void) { int i = 1; i = i++; return i; }'
file u11.c <<< $'int main(void) {\n  int x;\n  return x;\n}'
file loop.c <<< 'int main(void) { while (1); }'
file func.c <<< 'int main(void) { return __func__[0]; }'
file inl.c <<< 'static __inline__ int f(void) { return 1; } int main(void) { return f(); }'
file restr.c <<< 'int f(int *restrict p) { return *p; } int main(void) { return 0; }'
file noret.c <<< '_Noreturn void f(void); int main(void) { return 0; }'
file sassert.c <<< '_Static_assert(1, "x"); int main(void) { return 0; }'
file vla.c <<< 'int f(int n) { int a[n]; return 0; } int main(void) { return 0; }'
file generic.c <<< 'int main(void) { return _Generic(1, int: 0); }'
file cxx.c <<< 'class A { public: int x; }; int main() { return 0; }'
file cxx2.c <<< '#include <iostream>
int main() { std::cout << 1; }'
file empty_file.c < /dev/null
file long.c <<< "$(printf 'int main(void) { return 0'; for i in $(seq 60); do printf ' + %d' "$i"; done; printf ' + nosuch + 1; }')"

words -n 4 ./t.sh f.c
words --n 4 ./t.sh f.c
words --n=4 ./t.sh f.c
words -j8 ./t.sh f.c
words -j 8 ./t.sh f.c
words --timeout 30 ./t.sh f.c
words --timeout=30 ./t.sh f.c
words --tidy ./t.sh f.c
words --save-temps ./t.sh f.c
words --not-c ./t.sh f.c
words --sllooww ./t.sh f.c
words --worker 3 ./t.sh f.c
words --anyorder ./t.sh f.c
words -h
words ./t.sh f.c --help
words -v
words --version
words
words ./t.sh
words f.c
words f.c ./t.sh
words ./t.sh nosuch.c
words ./nosuch.sh f.c
words . f.c
words ./t.sh .
words --explain
words --explain K37
words --explain k37
words --explain token 2
words --explain U12
words --explain N9
words has: f.c
words 'has:"x' f.c
words 'if:has(main)' f.c
words 'if:ends(0' f.c
words 'if:same()' f.c
words 'if:has("main") and ends(0)' f.c
words 'if:ends(256)' f.c
words --limit --journal 5 ./t.sh
words --journal --resume ./t.sh f.c
words --replay f.c.log
words --replay --workers 3 f.c.log f.c
words --workers 0 ./t.sh f.c
words --workers 99 ./t.sh f.c
words --passes xyz ./t.sh f.c
words ./t.sh f.c g.c
words ./t.sh f.c --install
words has:nosuch f.c
words ./t.sh gen:1
printf '#!/bin/sh\nexit 1\n' > no.sh; chmod +x no.sh; words ./no.sh f.c
printf '#!/bin/sh\nexit 127\n' > bad.sh; chmod +x bad.sh; words ./bad.sh f.c
printf '#!/bin/sh\r\nexit 0\r\n' > crlf.sh; chmod +x crlf.sh; words ./crlf.sh f.c
printf 'exit 0\n' > plain.sh; words ./plain.sh f.c
printf '#!/nosuch/sh\nexit 0\n' > int.sh; chmod +x int.sh; words ./int.sh f.c
