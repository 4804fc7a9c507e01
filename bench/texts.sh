#!/bin/sh
# Times the texts of journals and reports, outside the merge gate.
# Makes a scratch repository of st_events, st_texts, st_journal and st_report and a small program, proves and builds the program (LLVM), and prints for each
# call the bytes of the text, the best time of 5 passes, the bytes a second, the same of a copy of these bytes into a new vector, and how many times as long
# the call takes. `write` and `read` have a journal of 1,000,001 events, which stores each number into one object and loads it again. `report` and `report_json`
# have runs of 1,000,000 events: one thread with 1,000 checks and with 100,000, and eight threads with 12,500 each, where all other events are stores and the
# ends of the checks. They go over the journal once for each thread, so of a run with few checks they make few bytes a second.
# Run it at any place of the repository:  sh bench/texts.sh
. "$(dirname "$0")/scratch.sh"

take st_journal st_report
echo 'textsbench: st_events st_journal st_report anyhow' >> "$scratch/crates.txt"
program=$scratch/crates/textsbench
mkdir -p "$program/src"

cat > "$program/src/errors.rt" <<'END_'
//! Why nothing is timed.

use st_events::NoMemory;
use st_journal::JournalError;
use std::alloc::{AllocError, AllocFailed};

/// Memory was refused, the clock or the output failed, or a call did not give what is wanted.
#[derive(Clone, Copy, Debug)]
pub struct Failed;

impl From<NoMemory> for Failed {
    fn from(_no_memory: NoMemory) -> Failed {
        Failed
    }
}

impl From<AllocError> for Failed {
    fn from(_error: AllocError) -> Failed {
        Failed
    }
}

impl<T: Drop> From<AllocFailed<T>> for Failed {
    fn from(_error: AllocFailed<T>) -> Failed {
        Failed
    }
}

impl From<JournalError> for Failed {
    fn from(_error: JournalError) -> Failed {
        Failed
    }
}

impl From<std::io::Error> for Failed {
    fn from(_error: std::io::Error) -> Failed {
        Failed
    }
}
END_

cat > "$program/src/runs.rt" <<'END_'
//! The events of a journal, and what runs leave.
ghost use Rattle.std.specs.Prelude.{IfOk, OnOk};
ghost use Rattle.std.specs.List.{All};
ghost use Rattle.st_journal.specs.Format.{HasUsedArgs};

use crate::errors::Failed;
use st_events::{Args, End, Event, MOST_ARGS, Plain, Ran, SHARED_OBJECT, Verdict};
use std::alloc::Global;

/// Puts an event behind the others.
fn put(events: &mut Vec<Event>, event: Event) -> Result<(), Failed>
    requires others { All HasUsedArgs events.old.items }
    requires event { HasUsedArgs event }
    ensures { OnOk result (All HasUsedArgs events.new.items) }
{
    events.push(event)?;
    Ok(())
}

/// One object, into which each number is stored, and from which it is loaded.
pub fn stores_and_loads(alloc: Global, pairs: u32) -> Result<Vec<Event>, Failed>
    ensures { IfOk result (λ events. All HasUsedArgs events.items) }
{
    let (m, obj, field) = (0, 2, 0);
    let mut events = Vec::new(alloc);
    put(&mut events, Event::New { m, obj, class: 1 })?;
    for number in 0..pairs {
        let value = u64::from(number);
        put(&mut events, Event::Store { m, obj, field, value })?;
        put(&mut events, Event::Load { m, obj, field, value })?;
    }
    Ok(events)
}

/// How many threads, checks of each of them, and stores behind each check a run has.
#[derive(Clone, Copy)]
pub struct Amounts {
    pub threads: u8,
    pub checks: u32,
    pub stores: u32,
}

/// The events of a check: the thread `m` launches it and then stores numbers, and the main thread ends it.
fn put_check(journal: &mut Vec<Event>, amounts: Amounts, m: u8, number: u32) -> Result<(), Failed> {
    let args = Args {
        count: 0,
        words: [0; MOST_ARGS],
    };
    journal.push(Event::Launch { m, site: 0, number, args })?;
    for value in 0..amounts.stores {
        journal.push(Event::Store {
            m,
            obj: SHARED_OBJECT,
            field: 0,
            value: u64::from(value),
        })?;
    }
    journal.push(Event::Retire { m: amounts.threads, number })?;
    Ok(())
}

/// What is left by a run in which all checks hold. The threads run one after another.
pub fn run_with_checks(alloc: Global, amounts: Amounts) -> Result<Ran, Failed> {
    let mut journal = Vec::new(alloc);
    let mut verdicts = Vec::new(alloc);
    let mut number: u32 = 0;
    for m in 0..amounts.threads {
        for _ in 0..amounts.checks {
            number = number.saturating_add(1);
            put_check(&mut journal, amounts, m, number)?;
            verdicts.push(Verdict::Plain(Plain::Holds))?;
        }
    }
    let ends = vec![in alloc; End::Finished; amounts.threads as usize]?;
    Ok(Ran {
        journal,
        verdicts,
        ends,
        free: 0,
    })
}
END_

cat > "$program/src/passes.rt" <<'END_'
//! Passes over each call: what it made in the last, and the nanoseconds of the best.
ghost use Rattle.std.specs.Prelude.{◌-◌, ◌<◌, ◌^◌, length};
ghost use Rattle.std.specs.List.{All};
ghost use Rattle.st_journal.specs.Format.{HasUsedArgs};

use crate::errors::Failed;
use st_events::{Event, Ran, Site, Sizes};
use st_journal::{read, write};
use st_report::{report, report_json};
use std::time::Instant;

const PASSES: u32 = 5;

/// The two forms of a report.
#[derive(Clone, Copy, Debug)]
pub enum Form {
    Lines,
    Json,
}

fn nanos_since(rt: &HostRuntime, start: Instant) -> Result<u64, Failed> {
    Ok(u64::try_from(start.elapsed(rt)?.as_nanos()).unwrap_or(u64::MAX))
}

/// The journal's text.
pub fn time_write(rt: &HostRuntime, events: &[Event]) -> Result<(Vec<u8>, u64), Failed>
    requires args { All HasUsedArgs events.now }
    requires few { length events.now < 2 ^ 32 }
{
    let mut text = Vec::new(rt.alloc());
    let mut best = u64::MAX;
    for _ in 0..PASSES {
        let start = Instant::now(rt)?;
        text = write(rt.alloc(), &Sizes::usual(1), events, &[])?;
        best = best.min(nanos_since(rt, start)?);
    }
    Ok((text, best))
}

/// Reading the text, which must tell these events.
pub fn time_read(rt: &HostRuntime, text: &[u8], events: &[Event]) -> Result<u64, Failed>
    requires { length text.now < 2 ^ 32 - 1 }
{
    let mut best = u64::MAX;
    for _ in 0..PASSES {
        let start = Instant::now(rt)?;
        let file = read(rt.alloc(), text)?;
        best = best.min(nanos_since(rt, start)?);
        if file.events.as_slice() != events {
            return Err(Failed);
        }
    }
    Ok(best)
}

/// A report of the run.
pub fn time_report(rt: &HostRuntime, form: Form, threads: &[&[u8]], ran: &Ran) -> Result<(Vec<u8>, u64), Failed> {
    let places = [Site { line: 40, column: 3 }];
    let mut text = Vec::new(rt.alloc());
    let mut best = u64::MAX;
    for _ in 0..PASSES {
        let start = Instant::now(rt)?;
        text = match form {
            Form::Lines => report(rt.alloc(), threads, &places, ran)?,
            Form::Json => report_json(rt.alloc(), threads, &places, ran)?,
        };
        best = best.min(nanos_since(rt, start)?);
    }
    Ok((text, best))
}

/// A copy of the text into a new vector.
pub fn time_copy(rt: &HostRuntime, text: &[u8]) -> Result<u64, Failed> {
    let mut best = u64::MAX;
    for _ in 0..PASSES {
        let start = Instant::now(rt)?;
        let copy = Vec::from_slice(rt.alloc(), text)?;
        best = best.min(nanos_since(rt, start)?);
        if copy.as_slice() != text {
            return Err(Failed);
        }
    }
    Ok(best)
}
END_

cat > "$program/src/main.rt" <<'END_'
//! Times the texts of journals and reports beside copies of them.
#![tactic(auto)]

mod errors;
mod passes;
mod runs;

use anyhow::Result;
use errors::Failed;
use passes::{Form, time_copy, time_read, time_report, time_write};
use runs::{Amounts, run_with_checks, stores_and_loads};

const EVENTS: u32 = 1_000_000;
const NAMES: [&[u8]; 8] = [b"a", b"b", b"c", b"d", b"e", b"f", b"g", b"h"];

/// In bytes a microsecond.
fn megabytes_a_second(bytes: usize, nanos: u64) -> u64 {
    (bytes as u64).saturating_mul(1_000).checked_div(nanos).unwrap_or(0)
}

fn in_tenths(nanos: u64, of: u64) -> u64 {
    nanos.saturating_mul(10).checked_div(of).unwrap_or(0)
}

/// Prints the row of a call that took so long, beside a copy of its text.
fn row(rt: &HostRuntime, name: &str, text: &[u8], nanos: u64) -> Result<(), Failed> {
    let copy = time_copy(rt, text)?;
    let ratio = in_tenths(nanos, copy);
    println!(rt;
        "  {name}: {} bytes, {nanos} ns, {} MB/s; copy {copy} ns, {} MB/s; {}.{} times as long",
        text.len(),
        megabytes_a_second(text.len(), nanos),
        megabytes_a_second(text.len(), copy),
        ratio / 10,
        ratio % 10
    )?;
    Ok(())
}

/// The rows of a journal.
fn journal_rows(rt: &HostRuntime) -> Result<(), Failed> {
    let events = stores_and_loads(rt.alloc(), EVENTS / 2)?;
    if events.len() > u32::MAX as usize {
        return Err(Failed);
    }
    println!(rt; "journal of {} events", events.len())?;
    let (text, nanos) = time_write(rt, &events)?;
    row(rt, "write", &text, nanos)?;
    if text.len() >= u32::MAX as usize {
        return Err(Failed);
    }
    let nanos = time_read(rt, &text, &events)?;
    row(rt, "read", &text, nanos)
}

/// The rows of a run whose threads have these names.
fn report_rows(rt: &HostRuntime, names: &[&[u8]], checks: u32, stores: u32) -> Result<(), Failed> {
    let threads = u8::try_from(names.len()).unwrap_or(u8::MAX);
    let ran = run_with_checks(rt.alloc(), Amounts { threads, checks, stores })?;
    println!(rt; "run of {} events, threads {threads}, checks {}", ran.journal.len(), ran.verdicts.len())?;
    let (text, nanos) = time_report(rt, Form::Lines, names, &ran)?;
    row(rt, "report", &text, nanos)?;
    let (text, nanos) = time_report(rt, Form::Json, names, &ran)?;
    row(rt, "report_json", &text, nanos)
}

fn bench(rt: &HostRuntime) -> Result<(), Failed> {
    journal_rows(rt)?;
    report_rows(rt, &NAMES[..1], EVENTS / 1_000, 998)?;
    report_rows(rt, &NAMES[..1], EVENTS / 10, 8)?;
    report_rows(rt, &NAMES, EVENTS / 80, 8)
}

fn main(rt: HostRuntime) -> Result<()> {
    if bench(&rt).is_err() {
        println!(rt; "memory, the clock or the output failed, or a text was not read back")?;
    }
    Ok(())
}
END_

mkdir -p "$program/proofs/runs/stores_and_loads"
cat > "$program/proofs/runs/stores_and_loads/Invariants.antt" <<'END_'
use Rattle.std.specs.List.{All}
use Rattle.st_journal.specs.Format.{HasUsedArgs}
use Rattle.textsbench.proofs.runs.stores_and_loads.Given as goal

abbrev pub invariant-loop-number : goal.invariant-loop-number
invariant-loop-number l = All HasUsedArgs l.events.items
END_

cd "$program"
rt run
