#!/usr/bin/env bash
# Prints how many megabytes a second cr_tokens::read reads of a C text of 1 MiB, on one core.
# It proves and builds a small timer in a folder of its own, which takes a few minutes. Run it by hand.
set -eu
. "$(dirname "${BASH_SOURCE[0]}")/timer.sh"
begin_timer cr_tokens
cat >src/main.rt <<'RT'
//! Reads the tokens of standard input a hundred times, and prints how long that took.
#![tactic(auto)]

use std::io::{self, Read};
use std::time::Instant;

fn main(rt: HostRuntime) -> io::Result<()> {
    let mut text = Vec::new(rt.alloc());
    rt.stdin().read_to_end(&mut text)?;
    let start = Instant::now(&rt)?;
    let mut tokens = 0;
    for _ in 0..100 {
        if let Ok(read) = cr_tokens::read(rt.alloc(), &text) {
            tokens = read.list.len();
        }
    }
    let taken = start.elapsed(&rt)?;
    println!(rt; "{} {} {}", text.len(), tokens, taken.as_micros())?;
    Ok(())
}
RT
build_timer
c_sample
out/timer <"$lab/sample.c" | awk '{ printf "%d bytes, %d tokens: %.0f MB/s\n", $1, $2, 100 * $1 / $3 }'
