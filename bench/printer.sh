#!/usr/bin/env bash
# Prints how many megabytes of text a second cr_printer::print makes of a C text's tokens, on one core.
# It proves and builds a small timer in a folder of its own, which takes a few minutes. Run it by hand.
set -eu
. "$(dirname "${BASH_SOURCE[0]}")/timer.sh"
begin_timer cr_tokens cr_ints cr_rows cr_syntax cr_printer
cat >src/main.rt <<'RT'
//! Prints the tokens of standard input a hundred times, and says how long that took.
#![tactic(auto)]

use cr_rows::Row;
use cr_syntax::Unit;
use std::io::{self, Read};
use std::time::Instant;

fn main(rt: HostRuntime) -> io::Result<()> {
    let alloc = rt.alloc();
    let mut text = Vec::new(alloc);
    rt.stdin().read_to_end(&mut text)?;
    let Ok(tokens) = cr_tokens::read(alloc, &text) else {
        return Ok(());
    };
    let count = tokens.list.len();
    let unit = Unit::new(tokens, Row::new(alloc), Row::new(alloc));
    let start = Instant::now(&rt)?;
    let mut bytes = 0;
    for _ in 0..100 {
        if let Ok(printed) = cr_printer::print(alloc, &text, &unit) {
            bytes = printed.len();
        }
    }
    let taken = start.elapsed(&rt)?;
    println!(rt; "{} {} {}", bytes, count, taken.as_micros())?;
    Ok(())
}
RT
build_timer
c_sample
out/timer <"$lab/sample.c" | awk '{ printf "%d bytes of %d tokens: %.0f MB/s\n", $1, $2, 100 * $1 / $3 }'
