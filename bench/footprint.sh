#!/usr/bin/env bash
# Prints how long cr_footprint takes on one core to make two single reads, to make and join them, and to join two footprints of 200,000
# cells that lie between each other: both read; one read and one written; both with half their cells read and half written.
# It proves and builds a small timer in a folder of its own, which takes a minute or two. Run it by hand.
set -eu
. "$(dirname "${BASH_SOURCE[0]}")/timer.sh"
begin_timer cr_footprint
mkdir -p specs
touch specs/Lib.antt
cat >src/main.rt <<'RT'
//! Joins small footprints many times and large ones once, and prints how long it took.
#![tactic(auto)]

use std::alloc::Global;
use std::io;
use std::time::Instant;

use cr_footprint::{Foot, FootEnd};

const TIMES: u32 = 100_000_000;
const CELLS: u32 = 200_000;

fn two_reads(alloc: Global, at: u32) -> Result<bool, FootEnd> {
    let left = Foot::read(alloc, 1, at)?;
    let both = left.beside(Foot::read(alloc, 2, at)?)?;
    Ok(both.reads().len() == 2)
}

// The two reads alone.
fn two_made(alloc: Global, at: u32) -> Result<bool, FootEnd> {
    let left = Foot::read(alloc, 1, at)?;
    let right = Foot::read(alloc, 2, at)?;
    Ok(left.reads().len() == right.reads().len())
}

// How many of them came out right.
fn made(alloc: Global) -> u32 {
    let mut right = 0;
    for at in 0..TIMES {
        if two_made(alloc, at) == Ok(true) && right < TIMES {
            right += 1;
        }
    }
    right
}

// How many of the joins came out right.
fn small(alloc: Global) -> u32 {
    let mut right = 0;
    for at in 0..TIMES {
        if two_reads(alloc, at) == Ok(true) && right < TIMES {
            right += 1;
        }
    }
    right
}

// Some cells of objects, each with the number `cell`: read, and then written.
fn large(alloc: Global, cell: u32, reads: u32, writes: u32) -> Result<Foot, FootEnd> {
    let mut foot = Foot::none(alloc);
    for object in 0..reads {
        foot = foot.own_read(object, cell)?;
    }
    for object in 0..writes {
        foot = foot.own_write(object, cell)?;
    }
    Ok(foot)
}

fn joined(left: Foot, right: Foot) -> Result<usize, FootEnd> {
    let both = left.beside(right)?;
    Ok(both.reads().len().saturating_add(both.writes().len()))
}

fn pair(alloc: Global, left: (u32, u32), right: (u32, u32)) -> Result<(Foot, Foot), FootEnd> {
    Ok((
        large(alloc, 0, left.0, left.1)?,
        large(alloc, 1, right.0, right.1)?,
    ))
}

fn main(rt: HostRuntime) -> io::Result<()> {
    let start = Instant::now(&rt)?;
    let right = made(rt.alloc());
    println!(rt; "two single reads made {} {}", right, start.elapsed(&rt)?.as_nanos())?;
    let start = Instant::now(&rt)?;
    let right = small(rt.alloc());
    println!(rt; "two single reads made and joined {} {}", right, start.elapsed(&rt)?.as_nanos())?;
    let half = CELLS / 2;
    for (left, right) in [
        ((CELLS, 0), (CELLS, 0)),
        ((0, CELLS), (CELLS, 0)),
        ((half, half), (half, half)),
    ] {
        if let Ok((left, right)) = pair(rt.alloc(), left, right) {
            let start = Instant::now(&rt)?;
            if let Ok(cells) = joined(left, right) {
                let took = start.elapsed(&rt)?.as_nanos();
                println!(rt; "large ones joined: {} cells {} {}", cells, 1, took)?;
            }
        }
    }
    Ok(())
}
RT
build_timer
./out/timer | awk '{ nanos = $NF; times = $(NF - 1); $NF = ""; $(NF - 1) = ""; if (times > 1) printf "%s: %.1f ns each, of %d\n", $0, nanos / times, times; else printf "%s: %.2f ms\n", $0, nanos / 1000000 }'
