#!/usr/bin/env bash
# Prints what a cr_memory::Store does on one core: the peak of the process's memory after ten million objects came and went while ten
# lived; how many millions of `load`, of `save`, of `begin`, of `copy` and of `cells` (of three cells each), and of `enter` with `leave`
# it does a second; and how long it looks for one of many live objects.
# It proves and builds a small timer in a folder of its own, which takes a few minutes. Run it by hand.
set -eu
. "$(dirname "${BASH_SOURCE[0]}")/timer.sh"
begin_timer cr_ints cr_memory
mkdir -p specs proofs/saves proofs/copies
touch specs/Lib.antt

cat >proofs/saves/Invariants.antt <<'ANTT'
use Rattle.cr_memory.specs.Memory.{IsPointer}
use Rattle.timer.proofs.saves.Given as goal

abbrev pub invariant-loop-value : goal.invariant-loop-value
invariant-loop-value l = IsPointer l.store l.at
ANTT
cat >proofs/copies/Invariants.antt <<'ANTT'
use Rattle.cr_memory.specs.Memory.{IsPointer}
use Rattle.timer.proofs.copies.Given as goal

abbrev pub invariant-loop-turn : goal.invariant-loop-turn
invariant-loop-turn l = record {
  from : IsPointer l.store l.from;
  to : IsPointer l.store l.to;
}
ANTT
cat >src/main.rt <<'RT'
//! Loads, saves, enters, leaves and looks up many times, and prints how long each took and how much memory was held.
#![tactic(auto)]

ghost use Rattle.std.specs.Prelude.{◌<◌, length};
ghost use Rattle.cr_memory.specs.Memory.{IsPointer};
ghost use Rattle.cr_memory.specs.Access.{HasStride};

use std::alloc::Global;
use std::fs;
use std::io;
use std::time::Instant;

use cr_ints::IntKind;
use cr_memory::{Cell, Element, Guard, Pointer, Scalar, Store};

const INT: Scalar = Scalar::Int(IntKind::Int);
const SHAPE: [(Scalar, Guard); 3] = [(INT, Guard::Free); 3];
const TIMES: u64 = 100_000_000;
const COMINGS: u32 = 10_000_000;

// Ten of them stay to the end.
fn every_millionth_stays(store: &mut Store) -> u32 {
    let mut stay = 0;
    for number in 0..COMINGS {
        if let Ok(object) = store.enter(&SHAPE, false) {
            if number % (COMINGS / 10) == 0 {
                stay = object;
            } else if store.is_live(object) {
                store.leave(object);
            }
        }
    }
    stay
}

// The oldest of eleven leaves.
fn each_outlives_ten(store: &mut Store) -> u32 {
    let mut left = 0;
    for _ in 0..COMINGS {
        if let Ok(object) = store.enter(&SHAPE, false) {
            let oldest = object.saturating_sub(10);
            if store.is_live(oldest) && left < COMINGS {
                store.leave(oldest);
                left += 1;
            }
        }
    }
    left
}

fn loads(store: &Store, at: Pointer) -> u64
    requires { IsPointer store.now at }
{
    let mut answers = 0;
    for _ in 0..TIMES {
        if store.load(at, INT).is_ok() && answers < TIMES {
            answers += 1;
        }
    }
    answers
}

fn saves(store: &mut Store, at: Pointer) -> u64
    requires { IsPointer store.old at }
{
    let mut answers = 0;
    for value in 0..TIMES {
        let cell = Cell::Number((value % 1000) as i128);
        if store.holds(INT, cell) && store.save(at, INT, cell).is_ok() && answers < TIMES {
            answers += 1;
        }
    }
    answers
}

fn begins(store: &mut Store, object: u32) -> u64 {
    let mut answers = 0;
    for value in 0..TIMES {
        if let Some(kind) = store.kind_of(object, 2) {
            let cell = Cell::Number((value % 1000) as i128);
            if store.holds(kind, cell) && answers < TIMES {
                store.begin(object, 2, cell);
                answers += 1;
            }
        }
    }
    answers
}

fn copies(store: &mut Store, from: Pointer, to: Pointer, count: u32) -> u64
    requires from { IsPointer store.old from }
    requires to { IsPointer store.old to }
    requires from_stride { HasStride from count }
    requires to_stride { HasStride to count }
{
    let mut answers = 0;
    for _turn in 0..TIMES / 10 {
        if store.copy(from, to, count).is_ok() && answers < TIMES {
            answers += 1;
        }
    }
    answers
}

fn takes(alloc: Global, store: &Store, from: Pointer, kinds: &[Scalar]) -> u64
    requires pointer { IsPointer store.now from }
    requires stride { HasStride from (length kinds.now) }
{
    let mut answers = 0;
    for _turn in 0..TIMES / 10 {
        if store.cells(alloc, from, kinds).is_ok() && answers < TIMES {
            answers += 1;
        }
    }
    answers
}

fn lifetimes(store: &mut Store) -> u64 {
    let mut answers = 0;
    for _ in 0..TIMES / 100 {
        if let Ok(object) = store.enter(&SHAPE, false) {
            if store.is_live(object) && answers < TIMES {
                store.leave(object);
                answers += 1;
            }
        }
    }
    answers
}

// So many live objects, of which none has the place of its number, since the first one has ended.
fn crowd(alloc: Global, count: u32) -> Store {
    let mut store = Store::new(alloc, 3_000_003);
    for _ in 0..=count {
        let _ = store.enter(&SHAPE, true);
    }
    if store.is_live(0) {
        store.leave(0);
    }
    store
}

// Looks for one of some objects at a time, which is drawn from the one before.
fn looks(store: &Store, first: u32, among: u32) -> u64
    requires { 0 < among }
{
    let mut seed: u64 = 1;
    let mut answers = 0;
    for _ in 0..TIMES / 10 {
        seed = seed.wrapping_mul(6_364_136_223_846_793_005).wrapping_add(1_442_695_040_888_963_407);
        let drawn = u32::try_from(seed % u64::from(among)).unwrap_or(0);
        if store.is_live(first.saturating_add(drawn)) && answers < TIMES {
            answers += 1;
        }
    }
    answers
}

fn print_peak(rt: &HostRuntime, title: &str) -> io::Result<()> {
    let status = fs::read_to_string(rt, "/proc/self/status")?;
    for line in status.lines() {
        if line.starts_with("VmHWM:") {
            println!(rt; "{title} {line}")?;
        }
    }
    Ok(())
}

fn print_memory(rt: &HostRuntime) -> io::Result<()> {
    print_peak(rt, "before an object")?;
    let mut store = Store::new(rt.alloc(), 1000);
    let last = every_millionth_stays(&mut store);
    println!(rt; "of {COMINGS} objects every millionth stays, the last is {last}")?;
    print_peak(rt, "peak")?;
    let mut store = Store::new(rt.alloc(), 1000);
    let left = each_outlives_ten(&mut store);
    println!(rt; "of {COMINGS} objects each outlives ten, {left} have left")?;
    print_peak(rt, "peak")?;
    Ok(())
}

fn print_accesses(rt: &HostRuntime) -> io::Result<()> {
    let mut store = Store::new(rt.alloc(), 1000);
    let _ = store.enter(&[(INT, Guard::Free); 100], true);
    let at = Pointer::At { object: 0, cell: 50, low: 0, high: 100, element: Element { cells: 1, of: 6 } };
    if store.is_pointer(at) {
        let start = Instant::now(rt)?;
        let answers = loads(&store, at);
        println!(rt; "timed load {} {}", answers, start.elapsed(rt)?.as_micros())?;
        let start = Instant::now(rt)?;
        let answers = saves(&mut store, at);
        println!(rt; "timed save {} {}", answers, start.elapsed(rt)?.as_micros())?;
    }
    let start = Instant::now(rt)?;
    let answers = looks(&store, 0, 1);
    println!(rt; "timed look for one at its number's place {} {}", answers, start.elapsed(rt)?.as_micros())?;
    let start = Instant::now(rt)?;
    let answers = lifetimes(&mut store);
    println!(rt; "timed enter and leave {} {}", answers, start.elapsed(rt)?.as_micros())?;
    Ok(())
}

fn print_structures(rt: &HostRuntime) -> io::Result<()> {
    let mut store = Store::new(rt.alloc(), 1000);
    let _ = store.enter(&SHAPE, true);
    let _ = store.enter(&SHAPE, true);
    let start = Instant::now(rt)?;
    let answers = begins(&mut store, 0);
    println!(rt; "timed begin {} {}", answers, start.elapsed(rt)?.as_micros())?;
    let from = Pointer::At { object: 0, cell: 0, low: 0, high: 3, element: Element { cells: 3, of: 13 } };
    let to = Pointer::At { object: 1, cell: 0, low: 0, high: 3, element: Element { cells: 3, of: 13 } };
    if store.is_pointer(from) {
        let start = Instant::now(rt)?;
        let answers = takes(rt.alloc(), &store, from, &[INT; 3]);
        println!(rt; "timed cells of a structure of three {} {}", answers, start.elapsed(rt)?.as_micros())?;
    }
    if store.is_pointer(from) && store.is_pointer(to) {
        let start = Instant::now(rt)?;
        let answers = copies(&mut store, from, to, 3);
        println!(rt; "timed copy of a structure of three {} {}", answers, start.elapsed(rt)?.as_micros())?;
    }
    Ok(())
}

fn print_looks(rt: &HostRuntime, count: u32) -> io::Result<()>
    requires { 0 < count }
{
    let store = crowd(rt.alloc(), count);
    let start = Instant::now(rt)?;
    let answers = looks(&store, 1, count);
    println!(rt; "timed look for any of {} live objects {} {}", count, answers, start.elapsed(rt)?.as_micros())?;
    let start = Instant::now(rt)?;
    let answers = looks(&store, count, 1);
    println!(rt; "timed look for the last of {} live objects {} {}", count, answers, start.elapsed(rt)?.as_micros())?;
    let start = Instant::now(rt)?;
    let answers = looks(&store, 1, 1);
    println!(rt; "timed look for the first of {} live objects {} {}", count, answers, start.elapsed(rt)?.as_micros())?;
    Ok(())
}

fn main(rt: HostRuntime) -> io::Result<()> {
    print_memory(&rt)?;
    print_accesses(&rt)?;
    print_structures(&rt)?;
    print_looks(&rt, 1000)?;
    print_looks(&rt, 100_000)?;
    print_looks(&rt, 1_000_000)?;
    Ok(())
}
RT
build_timer
./out/timer | awk '$1 == "timed" { times = $(NF - 1); micros = $NF; $NF = ""; $(NF - 1) = ""; $1 = ""; printf "%s: %.1f million a second, %.1f ns each\n", $0, times / micros, 1000 * micros / times; next } { print }'
