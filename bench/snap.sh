#!/bin/sh
# Times the calls of the snapshot heap beside a plain heap, at 1,000 and at 100,000 objects, outside the merge gate.
# Makes a scratch repository of st_events, st_snap, tests_snap and a small program, proves and builds the program (LLVM), and prints
# for each row the calls a second of the snapshot heap and of the plain one, by the best of 5 passes, and the ratio of the times.
# The driver tests what a call asks once for a whole loop of calls.
# Run it at any place of the repository:  sh bench/snap.sh
. "$(dirname "$0")/scratch.sh"

take tests_snap
echo 'snapbench: st_events tests_snap anyhow' >> "$scratch/crates.txt"
program=$scratch/crates/snapbench
mkdir -p "$program/src"

cat > "$program/src/plain.rt" <<'END_'
//! A heap without snapshots and without a journal: the words of all objects in one vector, each object as wide as any.

use crate::Work;
use st_events::NoMemory;
use std::alloc::Global;

#[derive(Drop)]
pub struct Plain {
    words: Vec<u64>,
    width: u8,
}

fn zeros(alloc: Global, count: usize) -> Result<Vec<u64>, NoMemory> {
    Ok(vec![in alloc; 0; count]?)
}

impl Plain {
    /// For objects of numbers below `objects`.
    pub fn make(alloc: Global, objects: u32, width: u8) -> Result<Plain, NoMemory> {
        let words = zeros(alloc, objects as usize * width as usize)?;
        Ok(Plain { words, width })
    }

    fn load(&self, obj: u32, field: u8) -> Option<u64> {
        let place = obj as usize * self.width as usize + field as usize;
        self.words.get(place).copied()
    }

    fn store(&mut self, obj: u32, field: u8, value: u64) {
        let place = obj as usize * self.width as usize + field as usize;
        if let Some(word) = self.words.get_mut(place) {
            *word = value;
        }
    }

    /// The same work as of a driven heap, where loads do for reads.
    pub fn work(&mut self, work: Work, objects: &[(u32, u8)], value: u64) -> u64 {
        match work {
            Work::Load | Work::Read => self.load_each(objects),
            Work::Store | Work::FirstStore => self.store_each(objects, value),
            Work::Turns => 0,
        }
    }

    fn load_each(&self, objects: &[(u32, u8)]) -> u64 {
        let mut sum: u64 = 0;
        for (obj, fields) in objects {
            if *fields > 0 {
                sum = sum.wrapping_add(self.load(*obj, 0).unwrap_or(0));
            }
        }
        sum
    }

    fn store_each(&mut self, objects: &[(u32, u8)], value: u64) -> u64 {
        for (obj, fields) in objects {
            if *fields > 0 {
                self.store(*obj, 0, value);
            }
        }
        0
    }
}
END_

cat > "$program/src/main.rt" <<'END_'
//! Times the calls of a snapshot heap, and of a plain one beside it.
#![tactic(auto)]

mod plain;

use anyhow::Result;
use plain::Plain;
use st_events::{Event, Journal, MOST_FIELDS, NoMemory, Sizes};
use tests_snap::{Driven, Refused};
use std::time::Instant;

/// What is timed.
#[derive(Clone, Copy, Debug, PartialEq, Eq)]
pub enum Work {
    /// A load of a field of each object.
    Load,
    /// A store into it.
    Store,
    /// The same, right after eight launches, which are not timed.
    FirstStore,
    /// A read of it by a check.
    Read,
    /// 1,000 launches, each with its retire.
    Turns,
}

/// The heap refused a call, memory was refused, or the clock or the output failed.
#[derive(Clone, Copy, Debug)]
pub struct Failed;

impl From<Refused> for Failed {
    fn from(_refused: Refused) -> Failed {
        Failed
    }
}

impl From<tests_snap::Failed> for Failed {
    fn from(_failed: tests_snap::Failed) -> Failed {
        Failed
    }
}

impl From<NoMemory> for Failed {
    fn from(_no_memory: NoMemory) -> Failed {
        Failed
    }
}

impl From<std::io::Error> for Failed {
    fn from(_error: std::io::Error) -> Failed {
        Failed
    }
}

const PASSES: u32 = 5;

const WIDTH: u8 = MOST_FIELDS as u8;

/// The best pass, and the sum of what all passes read, so that none is left out.
#[derive(Clone, Copy, Debug)]
struct Timed {
    nanos: u64,
    sum: u64,
}

fn nanos_since(rt: &HostRuntime, start: Instant) -> Result<u64, Failed> {
    Ok(u64::try_from(start.elapsed(rt)?.as_nanos()).unwrap_or(u64::MAX))
}

/// Does the work, and gives the sum of what it read.
fn do_work(heap: &mut Driven, work: Work, value: u64) -> Result<u64, Failed> {
    match work {
        Work::Load => Ok(heap.load_each(0)?),
        Work::Read => Ok(heap.read_each(0)?),
        Work::Store | Work::FirstStore => {
            heap.store_each(0, value)?;
            Ok(0)
        }
        Work::Turns => {
            heap.turns(0, 1_000)?;
            Ok(0)
        }
    }
}

/// One pass: the work so many times over.
fn pass(rt: &HostRuntime, heap: &mut Driven, work: Work, rounds: u64) -> Result<Timed, Failed> {
    let mut timed = Timed { nanos: 0, sum: 0 };
    for round in 0..rounds {
        if work == Work::FirstStore {
            heap.launch_many(8)?;
        }
        let start = Instant::now(rt)?;
        timed.sum = timed.sum.wrapping_add(do_work(heap, work, round)?);
        timed.nanos = timed.nanos.saturating_add(nanos_since(rt, start)?);
        if work == Work::FirstStore {
            heap.retire_many(8)?;
        }
    }
    Ok(timed)
}

fn best(rt: &HostRuntime, heap: &mut Driven, work: Work, rounds: u64) -> Result<Timed, Failed> {
    let mut best = pass(rt, heap, work, rounds)?;
    for _ in 1..PASSES {
        let next = pass(rt, heap, work, rounds)?;
        best.sum = best.sum.wrapping_add(next.sum);
        best.nanos = best.nanos.min(next.nanos);
    }
    Ok(best)
}

/// The same of the plain heap.
fn plain_best(
    rt: &HostRuntime,
    plain: &mut Plain,
    objects: &[(u32, u8)],
    work: Work,
    rounds: u64,
) -> Result<Timed, Failed> {
    let mut best = Timed {
        nanos: u64::MAX,
        sum: 0,
    };
    for _ in 0..PASSES {
        let start = Instant::now(rt)?;
        for round in 0..rounds {
            best.sum = best.sum.wrapping_add(plain.work(work, objects, round));
        }
        best.nanos = best.nanos.min(nanos_since(rt, start)?);
    }
    Ok(best)
}

fn a_second(count: u64, nanos: u64) -> u64 {
    count
        .saturating_mul(1_000_000_000)
        .checked_div(nanos)
        .unwrap_or(0)
}

/// Prints a row, and says so where the two heaps did not read the same words.
fn row(
    rt: &HostRuntime,
    heap: &mut Driven,
    work: Work,
    rounds: u64,
    plain: Timed,
    name: &str,
) -> Result<(), Failed> {
    let snap = best(rt, heap, work, rounds)?;
    let count = rounds.saturating_mul(heap.objects().len() as u64);
    let calls = a_second(count, snap.nanos);
    let plain_calls = a_second(count, plain.nanos);
    let ratio = in_tenths(snap.nanos, plain.nanos);
    let same = if snap.sum == plain.sum {
        ""
    } else {
        " NOT THE SAME WORDS"
    };
    println!(rt;
        "{name:<40} {calls:>12} {plain_calls:>12} {:>6}.{}{same}",
        ratio / 10,
        ratio % 10
    )?;
    Ok(())
}

fn in_tenths(nanos: u64, of: u64) -> u64 {
    nanos.saturating_mul(10).checked_div(of).unwrap_or(0)
}

/// The time of launches, each with its retire.
#[derive(Clone, Copy, Debug)]
struct Turns {
    /// No other check is active, and no copy is in use.
    alone: u64,
    /// Beside an older check that holds a copy of every object.
    beside: u64,
}

/// Prints a row of launches, and gives their time.
fn turns_row(rt: &HostRuntime, heap: &mut Driven, name: &str) -> Result<u64, Failed> {
    let turns = best(rt, heap, Work::Turns, 100)?;
    println!(rt; "{name:<40} {:>12}", a_second(100_000, turns.nanos))?;
    Ok(turns.nanos)
}

/// Each row at a heap; the answer is the time of launches and retires.
fn rows(
    rt: &HostRuntime,
    heap: &mut Driven,
    plain: &mut Plain,
    rounds: u64,
) -> Result<Turns, Failed> {
    let store = plain_best(rt, plain, heap.objects(), Work::Store, rounds)?;
    let load = plain_best(rt, plain, heap.objects(), Work::Load, rounds)?;
    row(rt, heap, Work::Store, rounds, store, "store, no check active")?;
    row(rt, heap, Work::FirstStore, rounds, store, "store, the first after eight launches")?;
    row(rt, heap, Work::Load, rounds, load, "load")?;
    heap.launch_many(8)?;
    row(rt, heap, Work::Read, rounds, load, "read of an unchanged object")?;
    heap.store_each(0, 0)?;
    row(rt, heap, Work::Read, rounds, load, "read of a copied object")?;
    row(rt, heap, Work::Store, rounds, store, "store, eight checks active, later ones")?;
    heap.retire_many(8)?;
    let alone = turns_row(rt, heap, "launch with its retire")?;
    heap.launch_many(1)?;
    heap.store_each(0, 0)?;
    let beside = turns_row(rt, heap, "the same beside a copy of every object")?;
    heap.retire_many(1)?;
    Ok(Turns { alone, beside })
}

/// The rows where each of eight mutators has so many objects.
fn at_size(rt: &HostRuntime, objects: u32, rounds: u64) -> Result<Turns, Failed> {
    let numbers = objects.saturating_mul(8).saturating_add(2);
    let sizes = Sizes {
        mutators: 8,
        lanes: 8,
        objects,
        copies: numbers,
        events: 1_048_576,
        calls: 10,
    };
    let mut plain = Plain::make(rt.alloc(), numbers, WIDTH)?;
    let mut heap = Driven::make(rt.alloc(), WIDTH, sizes)?;
    for m in 0..8 {
        heap.fill(m, objects)?;
    }
    println!(rt; "-- {} objects", heap.objects().len())?;
    rows(rt, &mut heap, &mut plain, rounds)
}

/// Events into a journal alone. As in a heap, no pass uses memory that another used.
fn journal_row(rt: &HostRuntime) -> Result<(), Failed> {
    let mut journal = Journal::with_room(rt.alloc(), 2_000_000)?;
    let mut best = u64::MAX;
    for _ in 0..PASSES {
        let start = Instant::now(rt)?;
        for value in 0..200_000 {
            if journal.spare() > 0 && journal.len() < 2_000_000 {
                let _pushed = journal.push(Event::Store {
                    m: 0,
                    obj: 2,
                    field: 0,
                    value,
                });
            }
        }
        best = best.min(nanos_since(rt, start)?);
    }
    println!(rt;
        "{:<40} {:>12}",
        "event into a journal alone",
        a_second(200_000, best)
    )?;
    Ok(())
}

fn percent(nanos: u64, of: u64) -> u64 {
    nanos.saturating_mul(100).checked_div(of).unwrap_or(0)
}

fn bench(rt: &HostRuntime) -> Result<(), Failed> {
    println!(rt;
        "{:<40} {:>12} {:>12} {:>8}",
        "calls a second", "snapshots", "plain", "ratio"
    )?;
    journal_row(rt)?;
    let small = at_size(rt, 125, 200)?;
    let large = at_size(rt, 12_500, 2)?;
    println!(rt;
        "launch with its retire: {} percent of the time that it takes in the small heap, and {} beside a copy of every object",
        percent(large.alone, small.alone),
        percent(large.beside, small.beside)
    )?;
    Ok(())
}

fn main(rt: HostRuntime) -> Result<()> {
    if bench(&rt).is_err() {
        println!(rt; "room, memory or the clock was refused")?;
    }
    Ok(())
}
END_

cd "$program"
rt run
