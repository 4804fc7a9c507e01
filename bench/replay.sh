#!/bin/sh
# Times `replay` on journals of one and two million events, outside the merge gate.
# Makes a scratch repository of st_events and a small program, proves and builds the program (LLVM), and prints for each
# journal its events, the best time of 5 passes in microseconds, and events a second.
# Run it at any place of the repository:  sh bench/replay.sh
. "$(dirname "$0")/scratch.sh"

take st_events
echo 'replaybench: st_events anyhow' >> "$scratch/crates.txt"

mkdir -p "$scratch/crates/replaybench/src"
cat > "$scratch/crates/replaybench/src/main.rt" <<'END'
//! Replays journals of stores and loads and prints how fast.
#![tactic(auto)]

use anyhow::Result;
use st_events::{Event, Kind, Shape, Sizes, replay};
use std::alloc::{AllocError, Global};
use std::time::Instant;

const PASSES: usize = 5;

/// One object, into which each number is stored, and from which it is loaded.
fn journal(alloc: Global, pairs: u64) -> Result<Vec<Event>, AllocError> {
    let mut events = Vec::new(alloc);
    events.push(Event::New {
        m: 0,
        obj: 2,
        class: 1,
    })?;
    for value in 0..pairs {
        events.push(Event::Store {
            m: 0,
            obj: 2,
            field: 0,
            value,
        })?;
        events.push(Event::Load {
            m: 0,
            obj: 2,
            field: 0,
            value,
        })?;
    }
    Ok(events)
}

/// The word at the end of the journal.
fn last_word(alloc: Global, shape: &Shape, sizes: &Sizes, events: &[Event]) -> Option<u64> {
    if !shape.fits() || !sizes.fits() || events.len() > u32::MAX as usize {
        return None;
    }
    match replay(alloc, shape, sizes, events) {
        Ok(heap) => heap.get(2, 0),
        Err(_) => None,
    }
}

fn main(rt: HostRuntime) -> Result<()> {
    let alloc = rt.alloc();
    let shape = Shape {
        classes: vec![in alloc; vec![in alloc]?, vec![in alloc; Kind::Int]?]?,
        checks: vec![in alloc]?,
    };
    let sizes = Sizes::usual(1);
    for pairs in [500_000, 1_000_000] {
        let events = journal(alloc, pairs)?;
        let count = events.len() as u64;
        let mut word = None;
        let mut best = u64::MAX;
        for _ in 0..PASSES {
            let start = Instant::now(&rt)?;
            word = last_word(alloc, &shape, &sizes, &events);
            let micros = u64::try_from(start.elapsed(&rt)?.as_micros()).unwrap_or(u64::MAX);
            best = best.min(micros);
        }
        let speed = count.saturating_mul(1_000_000).checked_div(best).unwrap_or(0);
        println!(rt; "{count} events, last word {word:?}: {best} microseconds, {speed} events a second")?;
    }
    Ok(())
}
END

cd "$scratch/crates/replaybench"
rt run
