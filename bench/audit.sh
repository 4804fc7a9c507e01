#!/bin/sh
# Times audits, outside the merge gate.
# Makes a scratch repository of the crates below st_audit and st_source and a small program, proves and builds the program (LLVM), and audits right
# journals of a source that builds a list of 2,000 nodes in each thread, and then launches checks of the whole list (9,996 reads each) with 9,950 stores behind
# each. Four checks are active at a time. It prints, for one thread with 50 and with 100 checks and for eight threads with 96, the events, the reads, the best
# time of 5 passes, the events a second, and the most memory so far; and beside it a replay of the same events (one pass over them, without checks).
# Proving the crates below takes by far the longest where nothing of them is kept.
# Run it at any place of the repository:  sh bench/audit.sh
. "$(dirname "$0")/scratch.sh"

take st_source st_audit
echo 'auditbench: st_events st_resolved st_check_meaning st_thread_meaning st_eval st_mutator st_lex st_ast st_types st_source st_audit anyhow' >> "$scratch/crates.txt"
program=$scratch/crates/auditbench
mkdir -p "$program/src"

cat > "$program/src/sources.rt" <<'END_'
//! The source whose journals are audited.

use std::alloc::{AllocError, Global};

const HEAD: &str = "class Node { val: int; next: Node; }
shared { n: int; }
pred sorted(n: Node): bool =
  n == null || n.next == null || n.val <= n.next.val && sorted(n.next);
";

const BUILD: &str = "
  var head: Node = null;
  var k: int = 2000;
  while (0 < k) {
    var x: Node = new Node;
    x.val = k;
    x.next = head;
    head = x;
    k = k - 1;
  }
  var c: int = 0;
  while (c < ";

const ROUND: &str = ") {
    check sorted(head);
    var i: int = 0;
    while (i < 199) {
";

const TAIL: &str = "      i = i + 1;
    }
    c = c + 1;
  }
}
";

/// A thread with so many rounds, of one check and 199 times 50 stores.
fn put_thread(text: &mut String, name: &str, rounds: &str) -> Result<(), AllocError> {
    text.push_str("thread ")?;
    text.push_str(name)?;
    text.push_str(" {")?;
    text.push_str(BUILD)?;
    text.push_str(rounds)?;
    text.push_str(ROUND)?;
    for _ in 0..50 {
        text.push_str("      shared.n = i;\n")?;
    }
    text.push_str(TAIL)
}

/// The source with threads of these names.
pub fn source(alloc: Global, names: &[&str], rounds: &str) -> Result<String, AllocError> {
    let mut text = String::from_str(alloc, HEAD)?;
    for name in names {
        put_thread(&mut text, name, rounds)?;
    }
    Ok(text)
}
END_

cat > "$program/src/journals.rt" <<'END_'
//! A right journal: the threads run one after another, and each check is retired when four later ones were launched.

use st_events::{Event, Sizes};
use st_mutator::{Mutator, Want};
use st_types::Typed;
use std::alloc::{AllocError, Global};

const ACTIVE: u32 = 4;

/// The events so far.
#[derive(Debug, Drop)]
pub struct Writer {
    pub events: Vec<Event>,
    pub launches: u32,
    made: u32,
}

impl Writer {
    pub fn new(alloc: Global) -> Writer {
        Writer {
            events: Vec::new(alloc),
            launches: 0,
            made: 0,
        }
    }

    /// Writes what the thread asks for, and gives its reply; None where the thread ends, or asks for a load or an exchange.
    fn write(&mut self, sizes: &Sizes, m: u8, want: Want) -> Result<Option<u64>, AllocError> {
        match want {
            Want::New { class } => {
                let first = u32::from(m).saturating_mul(sizes.objects).saturating_add(2);
                let obj = first.saturating_add(self.made);
                self.made = self.made.saturating_add(1);
                self.events.push(Event::New { m, obj, class })?;
                Ok(Some(u64::from(obj)))
            }
            Want::Store { obj, field, value } => {
                self.events.push(Event::Store { m, obj, field, value })?;
                Ok(Some(0))
            }
            Want::Launch { site, args } => {
                let number = self.launches.saturating_add(1);
                self.launches = number;
                self.events.push(Event::Launch { m, number, site, args })?;
                if number > ACTIVE {
                    self.events.push(Event::Retire { m, number: number - ACTIVE })?;
                }
                Ok(Some(0))
            }
            _ => Ok(None),
        }
    }

    /// Writes the own events of a thread. None of its threads wants for more than some millions.
    fn write_thread(&mut self, alloc: Global, typed: &Typed, sizes: &Sizes, m: u8) -> Result<(), AllocError> {
        let mut thread = match Mutator::make(alloc, typed.resolved(), m, sizes.objects, sizes.events) {
            Ok(thread) => thread,
            Err(_) => return Err(AllocError),
        };
        self.made = 0;
        let mut reply = 0;
        for _ in 0..4_000_000 {
            match self.write(sizes, m, thread.next(reply))? {
                Some(word) => reply = word,
                None => return Ok(()),
            }
        }
        Ok(())
    }
}

/// The events of all threads.
pub fn journal(alloc: Global, typed: &Typed, sizes: &Sizes) -> Result<Writer, AllocError> {
    let mut writer = Writer::new(alloc);
    for m in 0..sizes.mutators {
        writer.write_thread(alloc, typed, sizes, m)?;
    }
    Ok(writer)
}
END_

cat > "$program/src/main.rt" <<'END_'
//! Times audits of right journals.
#![tactic(auto)]

mod journals;
mod sources;

use anyhow::Result;
use journals::{Writer, journal};
use sources::source;
use st_audit::audit;
use st_events::{Plain, Sizes, Verdict, replay};
use st_source::read_source;
use st_types::Typed;
use std::alloc::{AllocError, Global};
use std::fs;
use std::time::Instant;

const PASSES: u32 = 5;
const READS: u32 = 9_996;

fn nanos_since(rt: &HostRuntime, start: Instant) -> Result<u64> {
    Ok(u64::try_from(start.elapsed(rt)?.as_nanos()).unwrap_or(u64::MAX))
}

fn a_second(count: usize, nanos: u64) -> u64 {
    (count as u64).saturating_mul(1_000_000_000).checked_div(nanos).unwrap_or(0)
}

/// What the system says of the most memory of this process so far.
fn memory(rt: &HostRuntime) -> Result<()> {
    let text = fs::read_to_string(rt, "/proc/self/status")?;
    for line in text.lines() {
        if line.starts_with("VmHWM") {
            println!(rt; "  {line}")?;
        }
    }
    Ok(())
}

/// As many checks that hold as there are launches.
fn all_hold(alloc: Global, launches: u32) -> Result<Vec<Verdict>, AllocError> {
    vec![in alloc; Verdict::Plain(Plain::Holds); launches as usize]
}

/// The time of one audit, if it finds nothing, and of one replay.
fn times(rt: &HostRuntime, typed: &Typed, sizes: &Sizes, writer: &Writer, verdicts: &[Verdict]) -> Result<Option<(u64, u64)>> {
    let events = writer.events.as_slice();
    if !sizes.fits() || events.len() > u32::MAX as usize || verdicts.len() > u32::MAX as usize {
        return Ok(None);
    }
    let start = Instant::now(rt)?;
    let found = audit(rt.alloc(), typed, sizes, events, verdicts);
    let nanos = nanos_since(rt, start)?;
    if found.is_err() {
        println!(rt; "found {found:?}")?;
        return Ok(None);
    }
    let start = Instant::now(rt)?;
    let legal = replay(rt.alloc(), typed.shape(), sizes, events).is_ok();
    let beside = nanos_since(rt, start)?;
    Ok(if legal { Some((nanos, beside)) } else { None })
}

/// A row: the events, the reads and the best times.
fn row(rt: &HostRuntime, typed: &Typed, name: &str) -> Result<()> {
    let sizes = Sizes {
        mutators: typed.threads(),
        lanes: 8,
        objects: 16_384,
        copies: 65_536,
        events: 1_048_576,
        calls: 1_000_000,
    };
    let writer = journal(rt.alloc(), typed, &sizes)?;
    let verdicts = all_hold(rt.alloc(), writer.launches)?;
    let mut best = u64::MAX;
    let mut best_replay = u64::MAX;
    for _ in 0..PASSES {
        match times(rt, typed, &sizes, &writer, &verdicts)? {
            Some((nanos, beside)) => {
                best = best.min(nanos);
                best_replay = best_replay.min(beside);
            }
            None => return Ok(()),
        }
    }
    println!(rt;
        "{name}: {} events, {} checks, {} reads: audit {} microseconds, {} events a second; replay {} microseconds",
        writer.events.len(),
        writer.launches,
        writer.launches.saturating_mul(READS),
        best / 1_000,
        a_second(writer.events.len(), best),
        best_replay / 1_000
    )?;
    memory(rt)
}

/// Reads the source and tells its row.
fn tell(rt: &HostRuntime, names: &[&str], rounds: &str, name: &str) -> Result<()> {
    let text = source(rt.alloc(), names, rounds)?;
    match read_source(rt.alloc(), text.as_bytes()) {
        Ok(typed) => row(rt, &typed, name),
        Err(_) => {
            println!(rt; "{name}: refused")?;
            Ok(())
        }
    }
}

fn main(rt: HostRuntime) -> Result<()> {
    tell(&rt, &["a"], "50", "one thread, half")?;
    tell(&rt, &["a"], "100", "one thread")?;
    tell(&rt, &["a", "b", "c", "d", "e", "f", "g", "h"], "12", "eight threads")
}
END_

mkdir -p "$program/proofs/journals/Writer/write_thread"
cat > "$program/proofs/journals/Writer/write_thread/Answers.antt" <<'END_'
use Rattle.std.proofs.Common.{sym, subst}
use Rattle.st_resolved.specs.declared.programs.Resolved.{Resolved}
use Rattle.st_resolved.specs.Views.{program_of}
use Rattle.st_mutator.specs.Mutators.{HasFewLocals}
use Rattle.st_mutator.proofs.FewLemmas.{well_formed_has_few_locals}
use Rattle.auditbench.proofs.journals.Writer.write_thread.Goals as goal

pub make-requires : goal.make-requires
make-requires c =
    subst (λ (r : Resolved). HasFewLocals (program_of r)) (sym c.resolved.ensures.resolved)
    (well_formed_has_few_locals _ _ c.resolved.ensures.well_formed)
END_

cd "$program"
rt run
