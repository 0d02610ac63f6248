#!/usr/bin/env bash
# Prints how many megabytes a second cr_tokens::read and cr_decls::parse read together of C texts, on one core: a program of
# 407 bytes again and again under other names, up to the limit of 262,144 tokens. Then the times of texts at that limit that
# are refused, are long rows, or have a great many names.
# It proves and builds a small timer in a folder of its own, which takes some minutes. Run it by hand.
set -eu
. "$(dirname "${BASH_SOURCE[0]}")/timer.sh"
begin_timer cr_tokens cr_ints cr_rows cr_syntax cr_syntax_order cr_syntax_machine cr_exprs cr_decls tests_parsers
cat >src/main.rt <<'RT'
//! Reads and parses the file on standard input ten times, and prints how long that took.
#![tactic(auto)]

use cr_decls::parse;
use tests_parsers::are_spans;
use std::alloc::Global;
use std::io::{self, Read};
use std::time::Instant;

fn main(rt: HostRuntime) -> io::Result<()> {
    let mut text = Vec::new(rt.alloc());
    rt.stdin().read_to_end(&mut text)?;
    let start = Instant::now(&rt)?;
    let mut seen = (0, 0);
    for _ in 0..10 {
        seen = counts(rt.alloc(), &text);
    }
    let taken = start.elapsed(&rt)?.as_micros();
    println!(rt; "{} {} {} {}", text.len(), seen.0, seen.1, taken)?;
    Ok(())
}

// How many tokens there are, and how many nodes their unit has.
fn counts(alloc: Global, text: &[u8]) -> (usize, usize) {
    let Ok(tokens) = cr_tokens::read(alloc, text) else {
        return (0, 0);
    };
    if !are_spans(text, tokens.list.as_slice()) {
        return (0, 0);
    }
    match parse(alloc, text, &tokens) {
        Ok(unit) => (tokens.list.len(), unit.nodes.len()),
        Err(_) => (tokens.list.len(), 0),
    }
}
RT
build_timer
timed() {
  out/timer | awk -v name="$1" '{ printf "%s: %d bytes, %d tokens, %d nodes: %.1f ms, %.1f MB/s\n", name, $1, $2, $3, $4 / 10000, 10 * $1 / $4 }'
}
under_other_names | timed 'the program under other names'
row '' 'int a;' 87381 '' | timed 'int a;'
row 'int ' '*' 262142 'a' | timed '*'
row 'int a=' '(' 262140 '' | timed '('
row 'int f()' '{' 262139 '' | timed '{'
row 'int f(){' ';' 262138 '}' | timed ';'
row 'int a={1' ',1' 131068 '};' | timed ',1'
awk 'BEGIN { printf "typedef int T;"; for (i = 0; i < 87379; i++) printf "T a%d;", i }' | timed 'a type, and names behind it'
awk 'BEGIN { printf "int f(int a"; for (i = 1; i < 60000; i++) printf ",int a%d", i; printf ")"; for (i = 0; i < 27000; i++) printf "[1]"; printf ";" }' | timed 'parameters, and suffixes behind them'
row 'int f' '(void)' 87379 ';' | timed '(void)'
row 'int a' '[1]' 87379 ';' | timed '[1]'
awk 'BEGIN { printf "int a;int f(){"; for (i = 0; i < 120; i++) printf "{int b%d;", i; for (i = 0; i < 130600; i++) printf "a;"; for (i = 0; i <= 120; i++) printf "}" }' | timed 'a name looked for in 122 scopes'
awk 'BEGIN { srand(1); split("int ( ) { } [ ] ; , * = a 1 if else for while return + -> . case", w, " "); for (i = 0; i < 262144; i++) printf "%s ", w[int(rand() * 22) + 1] }' | timed 'random tokens'
