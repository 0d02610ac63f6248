#!/usr/bin/env bash
# Prints how many millions of conversions and of additions a second cr_ints does on one core: of values that the kind has
# and of values that it doesn't.
# It proves and builds a small timer in a folder of its own, which takes a minute or two. Run it by hand.
set -eu
. "$(dirname "${BASH_SOURCE[0]}")/timer.sh"
begin_timer cr_ints
mkdir -p specs
touch specs/Lib.antt
cat >src/main.rt <<'RT'
//! Converts and adds many times, and prints how long each took.
#![tactic(auto)]

use std::io;
use std::time::Instant;

use cr_ints::{IntEnd, IntKind, add, convert};

const TIMES: u64 = 400_000_000;
const KINDS: [IntKind; 4] = [IntKind::Int, IntKind::ULong, IntKind::UChar, IntKind::LLong];

// Each value is drawn from the one before, so that no call can be left out.
fn next(seed: u64, value: i128) -> u64 {
    seed.wrapping_mul(6_364_136_223_846_793_005).wrapping_add(1_442_695_040_888_963_407) ^ (value & 0xff) as u64
}

fn conversions(kind: IntKind, bits: u32) -> u64 {
    let mut seed: u64 = 1;
    for _ in 0..TIMES {
        let value = i128::from(seed.wrapping_shr(bits)) - 1000;
        seed = next(seed, convert(value, kind));
    }
    seed
}

// The kind changes at each turn, so that no branch on it can be foreseen.
fn mixed_conversions(bits: u32) -> u64 {
    let mut seed: u64 = 1;
    for _ in 0..TIMES {
        let value = i128::from(seed.wrapping_shr(bits)) - 1000;
        seed = next(seed, convert(value, KINDS[(seed % 4) as usize]));
    }
    seed
}

fn additions(kind: IntKind, bits: u32) -> u64 {
    let mut seed: u64 = 1;
    for _ in 0..TIMES {
        let left = convert(i128::from(seed.wrapping_shr(bits)), kind);
        let right = convert(i128::from(seed % 4096), kind);
        seed = match add(kind, left, right) {
            IntEnd::Value(value) => next(seed, value),
            IntEnd::Undefined(number) => next(seed, i128::from(number)),
        };
    }
    seed
}

fn main(rt: HostRuntime) -> io::Result<()> {
    let start = Instant::now(&rt)?;
    let end = conversions(IntKind::Int, 57);
    println!(rt; "conversions to int of values that it has {} {} {}", end, TIMES, start.elapsed(&rt)?.as_micros())?;
    let start = Instant::now(&rt)?;
    let end = conversions(IntKind::Int, 1);
    println!(rt; "conversions to int of values that it doesn't have {} {} {}", end, TIMES, start.elapsed(&rt)?.as_micros())?;
    let start = Instant::now(&rt)?;
    let end = conversions(IntKind::UChar, 1);
    println!(rt; "conversions to unsigned char {} {} {}", end, TIMES, start.elapsed(&rt)?.as_micros())?;
    let start = Instant::now(&rt)?;
    let end = mixed_conversions(1);
    println!(rt; "conversions to kinds that change {} {} {}", end, TIMES, start.elapsed(&rt)?.as_micros())?;
    let start = Instant::now(&rt)?;
    let end = additions(IntKind::Int, 40);
    println!(rt; "two conversions and an addition of int {} {} {}", end, 3 * TIMES, start.elapsed(&rt)?.as_micros())?;
    let start = Instant::now(&rt)?;
    let end = additions(IntKind::ULong, 0);
    println!(rt; "two conversions and an addition of unsigned long {} {} {}", end, 3 * TIMES, start.elapsed(&rt)?.as_micros())?;
    Ok(())
}
RT
build_timer
./out/timer | awk '{ times = $(NF - 1); micros = $NF; $NF = ""; $(NF - 1) = ""; $(NF - 2) = ""; printf "%s: %.1f million a second\n", $0, times / micros }'
