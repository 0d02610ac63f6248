#!/usr/bin/env bash
# Prints how many epochs of 256 rejected positions a second cr_pool::Bench::epoch does with 1 and with 4 workers, and how long an
# epoch of no position takes, which is what starting and joining the threads costs. The judges say no at once; the file has 200 lines,
# and the bench forgets its verdicts before each epoch, so each position is tried.
# It proves and builds a small timer in a folder of its own, which takes some minutes. Run it by hand.
set -eu
. "$(dirname "${BASH_SOURCE[0]}")/timer.sh"
begin_timer cr_tokens cr_outside cr_cursor cr_rows cr_core cr_claims cr_pool cr_ints cr_syntax cr_syntax_machine cr_syntax_order cr_exprs cr_decls cr_lawful_analysis \
  cr_printer pass_edit pass_levels pass_text pass_exprs pass_stmts pass_list
mkdir -p specs proofs/rejected
touch specs/Lib.antt
cat >proofs/rejected/Invariants.antt <<'ANTT'
use Rattle.std.proofs.Common.{◌≤◌, length}
use Rattle.timer.proofs.rejected.Given as goal

abbrev pub invariant-loop : goal.invariant-loop
invariant-loop g l = l.workers ≤ length l.bench.judges
ANTT
cat >proofs/rejected/Answers.antt <<'ANTT'
use Rattle.std.proofs.Common.{◌≡◌, ◌+◌, ◌^◌, ◌<◌, ◌≤◌, ℕ, List, length, arith}
use Rattle.cr_cursor.specs.Variants.{cursors}
use Rattle.cr_cursor.specs.declared.passes.Passes.{Ghosts as PassesGhosts}
use Rattle.cr_pool.specs.declared.job.Job.{Job}
use Rattle.cr_pool.specs.Jobs.{IsPlaced, offer_of}
use Rattle.timer.proofs.rejected.Goals as goal

placed : {P I L Q : Type 0} (passes : PassesGhosts P I) (job : Job P L Q I) → job.start + job.len ≤ length (cursors (offer_of passes job).widths) → job.start + job.len < 2 ^ 64 → IsPlaced passes job
placed passes job among fits = record { among = among; fits = fits }

pub epoch-requires-clause-placed : goal.epoch-requires-clause-placed
epoch-requires-clause-placed g c = λ a b. let count = c.positions-count.ensures.count c.args.file.now in placed _ _ (omega (arith, count)) (omega (arith, c.positions-count.ensures.few))
ANTT
cat >src/main.rt <<'RT'
//! Runs many epochs on the file of standard input, and prints how long they took.
#![tactic(auto)]

ghost use Rattle.std.specs.Prelude.{◌≡◌, ◌<◌, ◌≤◌, None, length};
ghost use Rattle.cr_pool.specs.Bench.{IsManned};

use cr_cursor::{NoMemory, Passes, TokenLaw, positions};
use cr_outside::{Answer, Judge, Test};
use pass_list::CPasses;
use cr_pool::{Bench, EpochEnd, Job, measure};
use std::alloc::Global;
use std::io::{self, Read};
use std::thread::Threads;
use std::time::Instant;

#[derive(Drop)]
struct Refusing {
    asked: u64,
}

impl Judge for Refusing {
    type Key = ();

    ghost key = { λ _. tt };

    ghost says = { λ _ _ _ _. None };

    ghost asked = { λ j. j.asked };

    ghost calls = { λ _. None };

    ghost faults = { λ _. 0 };

    fn ask(&mut self, _alloc: Global, _test: &str, _name: &str, _file: &[u8]) -> Answer {
        self.asked = self.asked.saturating_add(1);
        Answer::No
    }
}

// How many epochs of so many positions ended with all rejected.
fn rejected<R: Threads + Sync>(rt: &R, alloc: Global, file: &[u8], len: u64, workers: u32, times: u32) -> Result<u32, NoMemory>
    requires few { len ≤ 4096 }
    requires file { length file.now ≤ 1048576 }
    requires workers { (0 < workers) × (workers ≤ 4) }
{
    let passes = CPasses::lines();
    let prep = passes.prepare(alloc, file)?;
    let count = positions(&passes, &prep);
    let mut judges = Vec::with_capacity(alloc, 4)?;
    judges.push(Refusing { asked: 0 })?;
    judges.push(Refusing { asked: 0 })?;
    judges.push(Refusing { asked: 0 })?;
    judges.push(Refusing { asked: 0 })?;
    let mut bench = Bench::new(alloc, judges)?;
    let question = Test::Program(String::from_str(alloc, "t")?);
    let size = match measure(alloc, file)? {
        Some(size) => size,
        None => return Ok(0),
    };
    if len > count {
        return Ok(0);
    }
    let mut ended = 0;
    for _ in 0..times {
        bench.forget();
        let job = Job { passes: &passes, prep: &prep, law: &TokenLaw, question: &question, name: "t.c", file, size, start: count - len, len, workers };
        if bench.epoch(rt, alloc, &job) == EpochEnd::NoneOf(len) && ended < times {
            ended += 1;
        }
    }
    Ok(ended)
}

fn main(rt: HostRuntime) -> io::Result<()> {
    let mut file = Vec::new(rt.alloc());
    rt.stdin().read_to_end(&mut file)?;
    if file.len() > 1_048_576 {
        return Ok(());
    }
    for (len, workers, times) in [(0, 1, 10_000), (0, 4, 10_000), (256, 1, 1_000), (256, 4, 1_000)] {
        let start = Instant::now(&rt)?;
        let ended = match rejected(&rt, rt.alloc(), &file, len, workers, times) {
            Ok(ended) => ended,
            Err(_) => 0,
        };
        let taken = start.elapsed(&rt)?.as_micros();
        println!(rt; "{} {} {} {}", len, workers, ended, taken)?;
    }
    Ok(())
}
RT
build_timer
awk 'BEGIN { for (i = 1; i <= 200; i++) print "int line_" i ";" }' >"$lab/lines.c"
out/timer <"$lab/lines.c" | awk '{ printf "%d positions, %d workers: %d epochs, %.1f us each, %.0f a second\n", $1, $2, $3, $4 / $3, 1000000 * $3 / $4 }'
