#!/usr/bin/env bash
# Prints how many megabytes a second cr_exprs::expression reads of one long expression, on one core: a chain of sums at the
# limit of tokens, and a text of calls, casts, subscripts and conditionals.
# It proves and builds a small timer in a folder of its own, which takes some minutes. Run it by hand.
set -eu
. "$(dirname "${BASH_SOURCE[0]}")/timer.sh"
begin_timer cr_tokens cr_ints cr_rows cr_syntax cr_syntax_order cr_syntax_machine cr_exprs cr_decls tests_parsers
cat >src/main.rt <<'RT'
//! Reads the expression on standard input twenty times, and prints how long that took.
#![tactic(auto)]

use cr_exprs::{Goal, TypeNames, expression};
use tests_parsers::are_spans;
use cr_rows::Row;
use cr_tokens::Tokens;
use std::io::{self, Read};
use std::time::Instant;
use std::alloc::Global;

fn main(rt: HostRuntime) -> io::Result<()> {
    let mut text = Vec::new(rt.alloc());
    rt.stdin().read_to_end(&mut text)?;
    let mut read_to = 0;
    let mut taken = 0;
    let mut count = 0;
    if let Ok(tokens) = cr_tokens::read(rt.alloc(), &text) {
        count = tokens.list.len();
        let start = Instant::now(&rt)?;
        for _ in 0..20 {
            read_to = end_of(rt.alloc(), &text, &tokens);
        }
        taken = start.elapsed(&rt)?.as_micros();
    }
    println!(rt; "{} {} {} {}", text.len(), count, read_to, taken)?;
    Ok(())
}

fn end_of(alloc: Global, file: &[u8], tokens: &Tokens) -> u32 {
    if !are_spans(file, tokens.list.as_slice()) {
        return 0;
    }
    let names = TypeNames { scopes: Row::new(alloc) };
    let mut nodes = Row::new(alloc);
    match expression(alloc, file, tokens, 0, 0, Goal::Expression, &names, &mut nodes) {
        Ok((_, next)) => next,
        Err(_) => 0,
    }
}
RT
build_timer
chain=$(printf 'a%.0s' 1; printf '+1%.0s' $(seq 1 131000))
mixed=$(printf 'x'; for _ in $(seq 1 7900); do printf ' + first_pair[index].left * value(second, 3)\n  - (int)total->part / (1 << count ? -4 : ~mask)'; done)
for text in "$chain" "$mixed"; do
    printf '%s' "$text" | out/timer | awk '{ printf "%d bytes, %d tokens, read to %d: %.1f MB/s\n", $1, $2, $3, 20 * $1 / $4 }'
done
