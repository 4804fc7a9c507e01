#!/bin/sh
# Times the machines of threads over a plain vector of words, outside the merge gate: no snapshots, no journal, and no check is evaluated.
# Makes a scratch repository of the crates below st_mutator and st_source and a small program, proves and builds the program (LLVM), and prints for the
# sources of `gen 1`, `gen 100` and `gen 1000`, whose two threads wait for nothing and so run one after the other: the requests, the best time of 9
# passes and the requests a second; and the time of `make` for both threads, with the most objects and charge that there may be.
# Proving the crates below takes by far the longest: about half an hour, where nothing of them is kept.
# Run it at any place of the repository:  sh bench/mutator.sh
. "$(dirname "$0")/scratch.sh"

take st_mutator st_source st_gen
echo 'mutatorbench: st_events st_lex st_resolved st_ast st_check_meaning st_thread_meaning st_mutator st_types st_source st_gen anyhow' >> "$scratch/crates.txt"
program=$scratch/crates/mutatorbench
mkdir -p "$program/src"

cat > "$program/src/heaps.rt" <<'END_'
//! A plain heap: the words of all objects in one vector.

use st_events::{MOST_FIELDS, SHARED_OBJECT};
use st_mutator::Want;
use std::alloc::{AllocError, Global};

/// Objects by number, each with the most fields that there may be.
#[derive(Debug, Drop)]
pub struct PlainHeap {
    words: Vec<u64>,
    /// The number of the last object that was made.
    last: u32,
}

impl PlainHeap {
    /// The shared object alone, with room for so many words in all.
    pub fn make(alloc: Global, words: usize) -> Result<PlainHeap, AllocError> {
        Ok(PlainHeap {
            words: zeros(alloc, words)?,
            last: SHARED_OBJECT,
        })
    }

    /// Does what is asked for, and gives the reply; None at an end.
    pub fn answer(&mut self, want: Want) -> Option<u64> {
        match want {
            Want::New { .. } => {
                self.last = self.last.saturating_add(1);
                Some(u64::from(self.last))
            }
            Want::Load { obj, field } => Some(self.word(obj, field)),
            Want::Store { obj, field, value } => {
                self.set(obj, field, value);
                Some(0)
            }
            Want::Cas {
                obj,
                field,
                expect,
                value,
            } => Some(self.exchange(obj, field, expect, value)),
            Want::Launch { .. } => Some(0),
            Want::End(_) => None,
        }
    }

    fn word(&self, obj: u32, field: u8) -> u64 {
        let place = place_of(obj, field);
        if place < self.words.len() {
            self.words[place]
        } else {
            0
        }
    }

    fn set(&mut self, obj: u32, field: u8, value: u64) {
        let place = place_of(obj, field);
        if place < self.words.len() {
            self.words[place] = value;
        }
    }

    fn exchange(&mut self, obj: u32, field: u8, expect: u64, value: u64) -> u64 {
        if self.word(obj, field) == expect {
            self.set(obj, field, value);
            1
        } else {
            0
        }
    }
}

/// Where the word of a field stands.
fn place_of(obj: u32, field: u8) -> usize {
    obj as usize * MOST_FIELDS + usize::from(field)
}

fn zeros(alloc: Global, count: usize) -> Result<Vec<u64>, AllocError> {
    let mut words = Vec::with_capacity(alloc, count)?;
    for _ in 0..count {
        words.push(0)?;
    }
    Ok(words)
}
END_

cat > "$program/src/threads.rt" <<'END_'
//! Threads over a plain heap.

use crate::heaps::PlainHeap;
use st_events::{MOST_EVENTS, MOST_OBJECTS};
use st_mutator::Mutator;
use st_types::Typed;
use std::alloc::Global;

/// A thread with the most objects and charge; None without memory.
pub fn made(alloc: Global, typed: &Typed, m: u8) -> Option<Mutator> {
    match Mutator::make(alloc, typed.resolved(), m, MOST_OBJECTS, MOST_EVENTS) {
        Ok(thread) => Some(thread),
        Err(_) => None,
    }
}

/// Runs a thread to its end, and counts what it asks for.
pub fn run_thread(thread: &mut Mutator, heap: &mut PlainHeap) -> u64 {
    let mut reply = 0;
    for requests in 0..u64::MAX {
        match heap.answer(thread.next(reply)) {
            Some(word) => reply = word,
            None => return requests,
        }
    }
    u64::MAX
}
END_

cat > "$program/src/main.rt" <<'END_'
//! Times the machines of threads.
#![tactic(auto)]

mod heaps;
mod threads;

use anyhow::Result;
use heaps::PlainHeap;
use st_events::MOST_FIELDS;
use st_gen::generate;
use st_source::read_source;
use st_types::Typed;
use std::time::Instant;
use threads::{made, run_thread};

const PASSES: u32 = 9;

/// The objects of the vector: more than the threads of `gen 1000` make.
const OBJECTS: usize = 4_096;

/// What is told of one pass over all threads.
#[derive(Clone, Copy)]
struct Row {
    requests: u64,
    nanos: u64,
    /// The time of `make`, of all threads together.
    making: u64,
}

fn nanos_since(rt: &HostRuntime, start: Instant) -> Result<u64> {
    Ok(u64::try_from(start.elapsed(rt)?.as_nanos()).unwrap_or(u64::MAX))
}

fn a_second(count: u64, nanos: u64) -> u64 {
    count.saturating_mul(1_000_000_000).checked_div(nanos).unwrap_or(0)
}

/// One pass: each thread is made, and runs to its end.
fn pass(rt: &HostRuntime, typed: &Typed) -> Result<Row> {
    let mut heap = PlainHeap::make(rt.alloc(), OBJECTS * MOST_FIELDS)?;
    let mut row = Row {
        requests: 0,
        nanos: 0,
        making: 0,
    };
    for m in 0..typed.threads() {
        let start = Instant::now(rt)?;
        let thread = made(rt.alloc(), typed, m);
        row.making = row.making.saturating_add(nanos_since(rt, start)?);
        match thread {
            Some(mut thread) => {
                let start = Instant::now(rt)?;
                let requests = run_thread(&mut thread, &mut heap);
                row.nanos = row.nanos.saturating_add(nanos_since(rt, start)?);
                row.requests = row.requests.saturating_add(requests);
            }
            None => println!(rt; "no memory")?,
        }
    }
    Ok(row)
}

fn tell(rt: &HostRuntime, n: u32, typed: &Typed) -> Result<()> {
    let first = pass(rt, typed)?;
    let mut best = first;
    for _ in 1..PASSES {
        let row = pass(rt, typed)?;
        best.nanos = best.nanos.min(row.nanos);
        best.making = best.making.min(row.making);
    }
    println!(rt;
        "gen {n}: {} requests in {} microseconds, {} a second; make of {} threads {} microseconds, {} at first",
        best.requests,
        best.nanos / 1_000,
        a_second(best.requests, best.nanos),
        typed.threads(),
        best.making / 1_000,
        first.making / 1_000
    )?;
    Ok(())
}

fn main(rt: HostRuntime) -> Result<()> {
    for n in [1, 100, 1_000] {
        let text = match generate(rt.alloc(), n) {
            Ok(text) => text,
            Err(_) => return Ok(()),
        };
        match read_source(rt.alloc(), &text) {
            Ok(typed) => tell(&rt, n, &typed)?,
            Err(_) => println!(rt; "gen {n}: refused")?,
        }
    }
    Ok(())
}
END_

mkdir -p "$program/proofs/threads/made"
cat > "$program/proofs/threads/made/Answers.antt" <<'END_'
use Rattle.std.proofs.Common.{sym, subst}
use Rattle.st_resolved.specs.declared.programs.Resolved.{Resolved}
use Rattle.st_resolved.specs.Views.{program_of}
use Rattle.st_mutator.specs.Mutators.{HasFewLocals}
use Rattle.st_mutator.proofs.FewLemmas.{well_formed_has_few_locals}
use Rattle.mutatorbench.proofs.threads.made.Goals as goal

pub make-requires : goal.make-requires
make-requires c =
    subst (λ (r : Resolved). HasFewLocals (program_of r)) (sym c.resolved.ensures.resolved)
    (well_formed_has_few_locals _ _ c.resolved.ensures.well_formed)
END_

cd "$program"
rt run
