#!/usr/bin/env bash
# Prints how many millions of sums, of loads and of stores of an int a second cr_eval::work_one and work_two do on one core, and how
# many millions of sums of two read ints cr_eval_join::join_two does, with their footprints.
# It proves and builds a small timer in a folder of its own, which takes some minutes. Run it by hand.
set -eu
. "$(dirname "${BASH_SOURCE[0]}")/timer.sh"
begin_timer cr_rows cr_ints cr_memory cr_footprint cr_library cr_meaning cr_eval cr_eval_join
mkdir -p specs
touch specs/Lib.antt
cat >src/main.rt <<'RT'
//! Does the own work of some nodes many times, and prints how long each took.
#![tactic(auto)]

use std::alloc::Global;
use std::io;
use std::time::Instant;

use cr_eval::{Table, work_one, work_two};
use cr_footprint::Foot;
use cr_ints::IntKind;
use cr_eval_join::{Part, join_two};
use cr_meaning::{Access, Change, Form, Limits, Op, Operator, Value, Work};
use cr_memory::{Element, Guard, Pointer, Scalar, Store};
use cr_rows::Row;

const TIMES: u64 = 50_000_000;

const INT: Scalar = Scalar::Int(IntKind::Int);

fn empty(alloc: Global) -> Table {
    Table {
        ops: Row::new(alloc),
        shapes: Row::new(alloc),
        literals: Row::new(alloc),
        kinds: Row::new(alloc),
        limits: Limits { steps: 1, depth: 1, cells: 100, output: 1 },
    }
}

fn op(alloc: Global, work: Work, access: Access) -> Op {
    Op { parts: Row::new(alloc), work, access }
}

fn place() -> Value {
    Value::Place(Pointer::At { object: 0, cell: 1, low: 0, high: 3, element: Element { cells: 1, of: 6 } })
}

// Each operand is drawn from the value before, so that no call can be left out.
fn number(value: &Value) -> i128 {
    match value {
        Value::Number(_, number) => *number,
        _ => 1,
    }
}

fn sums(alloc: Global, table: &Table, store: &mut Store) -> i128 {
    let sum = op(alloc, Work::Binary(Change::Arithmetic(Operator::Add, IntKind::Int)), Access::Unused);
    let mut last: i128 = 0;
    for _ in 0..TIMES {
        let left = Value::Number(IntKind::Int, last & 0xffff);
        let right = Value::Number(IntKind::Int, 7);
        if let Ok(did) = work_two(alloc, table, store, &sum, &left, &right) {
            last = number(&did.value);
        }
    }
    last
}

fn part(alloc: Global, value: i128, cell: u32) -> Option<Part> {
    match Foot::read(alloc, 0, cell) {
        Ok(foot) => Some(Part { value: Value::Number(IntKind::Int, value), foot }),
        Err(_) => None,
    }
}

fn joins(alloc: Global, table: &Table, store: &mut Store) -> i128 {
    let sum = op(alloc, Work::Binary(Change::Arithmetic(Operator::Add, IntKind::Int)), Access::Unused);
    let mut last: i128 = 0;
    for _ in 0..TIMES {
        if let (Some(mut left), Some(mut right)) = (part(alloc, last & 0xffff, 0), part(alloc, 7, 1)) {
            if join_two(alloc, table, store, &sum, &mut left, &mut right).is_ok() {
                last = number(&left.value);
            }
        }
    }
    last
}

fn loads(alloc: Global, table: &Table, store: &mut Store) -> i128 {
    let load = op(alloc, Work::Pass, Access::Scalar(INT, false));
    let at = place();
    let mut last: i128 = 0;
    for _ in 0..TIMES {
        if let Ok(did) = work_one(alloc, table, store, &load, &at) {
            last ^= number(&did.value);
        }
    }
    last
}

fn stores(alloc: Global, table: &Table, store: &mut Store) -> i128 {
    let assign = op(alloc, Work::Assign(Form::Number(IntKind::Int)), Access::Unused);
    let at = place();
    let mut last: i128 = 0;
    for _ in 0..TIMES {
        let right = Value::Number(IntKind::Int, (last & 0xffff) ^ 1);
        if let Ok(did) = work_two(alloc, table, store, &assign, &at, &right) {
            last = number(&did.value);
        }
    }
    last
}

fn main(rt: HostRuntime) -> io::Result<()> {
    let alloc = rt.alloc();
    let table = empty(alloc);
    let mut store = Store::new(alloc, 100);
    let int = (INT, Guard::Free);
    let entered = store.enter(&[int, int, int], true).is_ok();
    println!(rt; "objects entered {entered} 0 1")?;
    let start = Instant::now(&rt)?;
    let end = sums(alloc, &table, &mut store);
    println!(rt; "sums of int {} {} {}", end, TIMES, start.elapsed(&rt)?.as_micros())?;
    let start = Instant::now(&rt)?;
    let end = joins(alloc, &table, &mut store);
    println!(rt; "sums of int with footprints {} {} {}", end, TIMES, start.elapsed(&rt)?.as_micros())?;
    let start = Instant::now(&rt)?;
    let end = loads(alloc, &table, &mut store);
    println!(rt; "loads of an int {} {} {}", end, TIMES, start.elapsed(&rt)?.as_micros())?;
    let start = Instant::now(&rt)?;
    let end = stores(alloc, &table, &mut store);
    println!(rt; "assignments to an int {} {} {}", end, TIMES, start.elapsed(&rt)?.as_micros())?;
    Ok(())
}
RT
build_timer
./out/timer | awk 'NR > 1 { times = $(NF - 1); micros = $NF; $NF = ""; $(NF - 1) = ""; $(NF - 2) = ""; printf "%s: %.1f million a second\n", $0, times / micros }'
