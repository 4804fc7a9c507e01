#!/bin/sh
# Times scheduled runs of generated sources, outside the merge gate.
# Makes a scratch repository of the crates below st_sched and st_source and a small program, proves and builds the program (LLVM), and prints for the
# sources of `gen 1`, `gen 100` and `gen 1000`, by seed 0 with the sizes of a demonstration: the turns and the events of the run, the best time of 3
# passes, the turns a second, and the most memory so far. The time of `gen 1` is that of the opening: it takes all memory.
# The turns are counted afterwards: one for each event that is no Retire, and one for each cell that a check reads on the heap before its launch.
# Proving the crates below takes by far the longest: about half an hour.
# Run it at any place of the repository:  sh bench/schedule.sh
. "$(dirname "$0")/scratch.sh"

take st_source st_sched st_gen
echo 'schedulebench: st_events st_resolved st_eval st_lex st_ast st_types st_source st_sched st_gen anyhow' >> "$scratch/crates.txt"
program=$scratch/crates/schedulebench
mkdir -p "$program/src"

cat > "$program/src/turns.rt" <<'END_'
//! How many turns a run took, by its journal.
ghost use Rattle.std.specs.Prelude.{◌≤◌};
ghost use Rattle.st_events.specs.declared.shapes.TheConstants.{MOST_ARGS};

use st_eval::{Ask, Eval};
use st_events::{Args, Event, HeapMap, MOST_ARGS, Sizes, replay};
use st_resolved::Resolved;
use st_types::Typed;
use std::alloc::Global;

/// How many cells the check of a site reads on the heap.
fn count_reads(alloc: Global, program: &Resolved, heap: &HeapMap, site: u16, args: Args) -> Option<u64>
    requires { args.count ≤ MOST_ARGS }
{
    let mut eval = Eval::make(alloc, program, 1_000_000).ok()?;
    eval.start(program, site, args);
    let mut reply = 0;
    for reads in 0..u64::MAX {
        match eval.next(program, reply) {
            Ask::Done(_) => return Some(reads),
            Ask::Read { obj, field } => reply = heap.get(obj, field).unwrap_or(0),
        }
    }
    None
}

/// How many cells the check reads that is launched at the place.
fn reads_at(alloc: Global, typed: &Typed, sizes: &Sizes, past: &[Event], site: u16, args: Args) -> Option<u64> {
    if past.len() > u32::MAX as usize || !sizes.fits() || usize::from(args.count) > MOST_ARGS {
        return None;
    }
    match replay(alloc, typed.shape(), sizes, past) {
        Ok(heap) => count_reads(alloc, typed.resolved(), &heap, site, args),
        Err(_) => None,
    }
}

/// How many turns the run with this journal took, where no check is abandoned.
pub fn count_turns(alloc: Global, typed: &Typed, sizes: &Sizes, journal: &[Event]) -> Option<u64> {
    let mut turns: u64 = 0;
    for place in 0..journal.len() {
        let more = match journal[place] {
            Event::Retire { .. } => 0,
            Event::Launch { site, args, .. } => reads_at(alloc, typed, sizes, &journal[..place], site, args)?.saturating_add(1),
            _ => 1,
        };
        turns = turns.saturating_add(more);
    }
    Some(turns)
}
END_

cat > "$program/src/main.rt" <<'END_'
//! Times scheduled runs.
#![tactic(auto)]

mod turns;

use anyhow::Result;
use st_events::{Sizes, Verdict};
use st_gen::generate;
use st_sched::run_scheduled;
use st_source::read_source;
use st_types::Typed;
use std::fs;
use std::time::Instant;
use turns::count_turns;

const PASSES: u32 = 3;

/// What is told of a run.
#[derive(Clone, Copy)]
struct Row {
    turns: u64,
    events: usize,
    checks: usize,
    abandoned: bool,
    nanos: u64,
}

fn nanos_since(rt: &HostRuntime, start: Instant) -> Result<u64> {
    Ok(u64::try_from(start.elapsed(rt)?.as_nanos()).unwrap_or(u64::MAX))
}

fn a_second(count: u64, nanos: u64) -> u64 {
    count.saturating_mul(1_000_000_000).checked_div(nanos).unwrap_or(0)
}

fn some_abandoned(verdicts: &[Verdict]) -> bool {
    for verdict in verdicts {
        match verdict {
            Verdict::Plain(_) => {}
            Verdict::Abandoned { .. } => return true,
        }
    }
    false
}

/// One run with the sizes of a demonstration; None without memory.
fn run_once(rt: &HostRuntime, typed: &Typed) -> Result<Option<Row>> {
    let sizes = Sizes {
        mutators: typed.threads(),
        lanes: 8,
        objects: 16_384,
        copies: 65_536,
        events: 1_048_576,
        calls: 1_000_000,
    };
    if !sizes.fits() {
        return Ok(None);
    }
    let start = Instant::now(rt)?;
    let answer = run_scheduled(rt.alloc(), typed, &sizes, 0);
    let nanos = nanos_since(rt, start)?;
    match answer {
        Ok(ran) => Ok(Some(Row {
            turns: count_turns(rt.alloc(), typed, &sizes, &ran.journal).unwrap_or(0),
            events: ran.journal.len(),
            checks: ran.verdicts.len(),
            abandoned: some_abandoned(&ran.verdicts),
            nanos,
        })),
        Err(_) => Ok(None),
    }
}

/// What the system says of the most memory of this process so far.
fn memory(rt: &HostRuntime) -> Result<()> {
    let text = fs::read_to_string(rt, "/proc/self/status")?;
    for line in text.lines() {
        if line.starts_with("VmHWM") {
            println!(rt; "  {line}")?;
        }
    }
    Ok(())
}

fn tell(rt: &HostRuntime, n: u32, typed: &Typed) -> Result<()> {
    let mut best = u64::MAX;
    let mut last = None;
    for _ in 0..PASSES {
        last = run_once(rt, typed)?;
        match last {
            Some(row) => best = best.min(row.nanos),
            None => {}
        }
    }
    match last {
        Some(row) => println!(rt;
            "gen {n}: {} turns, {} events, {} checks, abandoned {}: {} microseconds, {} turns a second",
            row.turns,
            row.events,
            row.checks,
            row.abandoned,
            best / 1_000,
            a_second(row.turns, best)
        )?,
        None => println!(rt; "gen {n}: no memory")?,
    }
    memory(rt)
}

fn main(rt: HostRuntime) -> Result<()> {
    for n in [1, 100, 1_000] {
        let text = match generate(rt.alloc(), n) {
            Ok(text) => text,
            Err(_) => return Ok(()),
        };
        match read_source(rt.alloc(), &text) {
            Ok(typed) => tell(&rt, n, &typed)?,
            Err(_) => println!(rt; "gen {n}: refused")?,
        }
    }
    Ok(())
}
END_

mkdir -p "$program/proofs/turns/count_reads"
cat > "$program/proofs/turns/count_reads/Invariants.antt" <<'END_'
use Rattle.st_resolved.specs.Views.{program_of}
use Rattle.st_eval.specs.Evaluations.{IsMadeFor}
use Rattle.schedulebench.proofs.turns.count_reads.Given as goal

abbrev pub invariant-loop-reads : goal.invariant-loop-reads
invariant-loop-reads l = IsMadeFor (program_of l.program) l.eval
END_

cd "$program"
rt run
