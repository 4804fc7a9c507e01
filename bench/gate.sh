#!/bin/sh
# Times the gate beside a Mutex and an RwLock of std used for the same, outside the merge gate: enter with leave and close with open,
# by one thread alone, and enters by 1, 2 and 4 threads at once.
# Makes a scratch repository of the crates and a small program, proves and builds the program (LLVM), and prints for each row the
# rounds a second of the gate, of the Mutex and of the RwLock, by the best of 5 passes, and the ratios of the times.
# Run it at any place of the repository:  sh bench/gate.sh
. "$(dirname "$0")/scratch.sh"

take st_gate
echo 'gatebench may_wait=20: st_events st_rule st_gate' >> "$scratch/crates.txt"
program=$scratch/crates/gatebench
mkdir -p "$program/src" "$program/proofs/gates/visit" "$program/proofs/gates/close_many"

cat > "$program/src/gates.rt" <<'END_'
//! Rounds through the gate.
ghost use Rattle.std.specs.Prelude.{◌≡◌, IfOk};
ghost use Rattle.std.specs.Thread.{IsSync};
ghost use Rattle.st_gate.specs.Later.{IsLater};
ghost use Rattle.st_gate.specs.Phases.{IsOutside};
ghost use Rattle.st_rule.specs.Rule.{first_view};
ghost use Rattle.st_rule.specs.Seats.{IsSeatOf, sizes_of, terms_of};

use st_events::{Judge, NoMemory};
use st_gate::{close_gate, enter, leave, open_gate};
use st_rule::{MutSeat, Shared};
use std::alloc::Global;
use std::sync::Wait;
use std::thread::{Threads, join};

/// Goes in and out so many times.
pub fn visit<J: Judge, R: Wait>(
    rt: &R,
    shared: &Shared<J>,
    mut seat: MutSeat<J>,
    times: u32,
) -> MutSeat<J>
    requires table { IsSeatOf J.meant shared.now seat }
    requires phase { IsOutside seat }
    ensures later { IsLater seat result }
    ensures phase { IsOutside result }
{
    for _ in 0..times {
        let inside = enter(rt, shared, seat);
        seat = leave(shared, inside);
    }
    seat
}

/// Closes and opens so many times.
pub fn close_many<J: Judge, R: Wait>(
    rt: &R,
    shared: &Shared<J>,
    mut seat: MutSeat<J>,
    times: u32,
) -> MutSeat<J>
    requires table { IsSeatOf J.meant shared.now seat }
    requires phase { IsOutside seat }
    ensures later { IsLater seat result }
    ensures phase { IsOutside result }
{
    for _ in 0..times {
        let alone = close_gate(rt, shared, seat);
        seat = open_gate(shared, alone);
    }
    seat
}

/// Two threads go in and out.
pub fn visit_two<J: Judge + Sync + Send, R: Threads + Wait + Sync>(
    rt: &R,
    shared: &Shared<J>,
    one: MutSeat<J>,
    two: MutSeat<J>,
    times: u32,
) -> (MutSeat<J>, MutSeat<J>)
    requires one { IsSeatOf J.meant shared.now one × IsOutside one }
    requires two { IsSeatOf J.meant shared.now two × IsOutside two }
    ensures one { IsLater one result.0 × IsOutside result.0 }
    ensures two { IsLater two result.1 × IsOutside result.1 }
{
    join(
        rt,
        move || -> MutSeat<J>
            requires { IsSeatOf J.meant shared.now one × IsOutside one }
            ensures { IsLater one result × IsOutside result }
        { visit(rt, shared, one, times) },
        move || -> MutSeat<J>
            requires { IsSeatOf J.meant shared.now two × IsOutside two }
            ensures { IsLater two result × IsOutside result }
        { visit(rt, shared, two, times) },
    )
}

/// Four threads go in and out.
pub fn visit_four<J: Judge + Sync + Send, R: Threads + Wait + Sync>(
    rt: &R,
    shared: &Shared<J>,
    front: (MutSeat<J>, MutSeat<J>),
    back: (MutSeat<J>, MutSeat<J>),
    times: u32,
)
    requires one { IsSeatOf J.meant shared.now front.0 × IsOutside front.0 }
    requires two { IsSeatOf J.meant shared.now front.1 × IsOutside front.1 }
    requires three { IsSeatOf J.meant shared.now back.0 × IsOutside back.0 }
    requires four { IsSeatOf J.meant shared.now back.1 × IsOutside back.1 }
{
    join(
        rt,
        move ||
            requires { IsSeatOf J.meant shared.now front.0 × IsOutside front.0 × IsSeatOf J.meant shared.now front.1 × IsOutside front.1 × IsSync R.row }
        {
            visit_two(rt, shared, front.0, front.1, times);
        },
        move ||
            requires { IsSeatOf J.meant shared.now back.0 × IsOutside back.0 × IsSeatOf J.meant shared.now back.1 × IsOutside back.1 × IsSync R.row }
        {
            visit_two(rt, shared, back.0, back.1, times);
        },
    );
}

/// The seats of two mutators that come next.
pub fn next_two<J: Judge>(
    alloc: Global,
    shared: &Shared<J>,
    main: &mut MutSeat<J>,
    first: u8,
) -> Result<(MutSeat<J>, MutSeat<J>), NoMemory>
    requires table { IsSeatOf J.meant shared.now main.old }
    requires main { IsMain main.old }
    requires next { first ≡ main.old.view.gate.split }
    requires mutators { first + 2 ≤ main.old.view.terms.sizes.mutators }
    requires unseen { main.old.view.journal.seen ≡ [] }
    ensures table { IsSeatOf J.meant shared.now main.new }
    ensures main { IfOk result (λ _. main.new.view ≡ split_one (split_one main.old.view)) }
    ensures one { IfOk result (λ two. IsSeatOf J.meant shared.now two.0 × IsOutside two.0) }
    ensures two { IfOk result (λ two. IsSeatOf J.meant shared.now two.1 × IsOutside two.1) }
{
    let one = shared.split_mut(alloc, main, first)?;
    let two = shared.split_mut(alloc, main, first + 1)?;
    Ok((one, two))
}
END_

for f in visit close_many; do cat > "$program/proofs/gates/$f/Invariants.antt" <<END_
use Rattle.st_rule.specs.Seats.{IsSeatOf}
use Rattle.st_gate.specs.Later.{IsLater}
use Rattle.st_gate.specs.Phases.{IsOutside}
use Rattle.gatebench.proofs.gates.$f.Given as goal

abbrev pub invariant-loop : goal.invariant-loop
invariant-loop g l = record {
  table : IsSeatOf g.J.Judge.meant l.shared l.seat;
  outside : IsOutside l.seat;
  later : IsLater l.fn.seat l.seat;
}
END_
done

cat > "$program/src/locks.rt" <<'END_'
//! The same by locks of std.

use std::sync::{Mutex, RwLock, Wait};
use std::thread::{Threads, join};

pub fn lock_many<R: Wait>(rt: &R, lock: &Mutex<u64>, times: u32) {
    for _ in 0..times {
        let mut guard = lock.lock(rt);
        *guard = guard.wrapping_add(1);
    }
}

pub fn read_many<R: Wait>(rt: &R, lock: &RwLock<u64>, times: u32) -> u64 {
    let mut sum = 0u64;
    for _ in 0..times {
        sum = sum.wrapping_add(*lock.read(rt));
    }
    sum
}

pub fn write_many<R: Wait>(rt: &R, lock: &RwLock<u64>, times: u32) {
    for _ in 0..times {
        let mut guard = lock.write(rt);
        *guard = guard.wrapping_add(1);
    }
}

pub fn lock_by_two<R: Threads + Wait + Sync>(rt: &R, lock: &Mutex<u64>, times: u32) {
    join(rt, || lock_many(rt, lock, times), || lock_many(rt, lock, times));
}

pub fn read_by_two<R: Threads + Wait + Sync>(rt: &R, lock: &RwLock<u64>, times: u32) -> u64 {
    let (a, b) = join(rt, || read_many(rt, lock, times), || read_many(rt, lock, times));
    a.wrapping_add(b)
}

pub fn lock_by_four<R: Threads + Wait + Sync>(rt: &R, lock: &Mutex<u64>, times: u32) {
    join(
        rt,
        || requires { IsSync R.row } { lock_by_two(rt, lock, times) },
        || requires { IsSync R.row } { lock_by_two(rt, lock, times) },
    );
}

pub fn read_by_four<R: Threads + Wait + Sync>(rt: &R, lock: &RwLock<u64>, times: u32) -> u64 {
    let (a, b) = join(
        rt,
        || -> u64 requires { IsSync R.row } { read_by_two(rt, lock, times) },
        || -> u64 requires { IsSync R.row } { read_by_two(rt, lock, times) },
    );
    a.wrapping_add(b)
}
END_
sed -i '1a ghost use Rattle.std.specs.Thread.{IsSync};' "$program/src/locks.rt"
sed -i -e 's/^ghost use Rattle.std.specs.Prelude.{◌≡◌, IfOk};/ghost use Rattle.std.specs.Prelude.{◌≡◌, ◌+◌, ◌≤◌, [], IfOk};/' \
    -e 's/^ghost use Rattle.st_rule.specs.Rule.{first_view};/ghost use Rattle.st_rule.specs.Turns.{split_one};/' \
    -e 's/{IsSeatOf, sizes_of, terms_of}/{IsSeatOf, IsMain}/' "$program/src/gates.rt"

cat > "$program/src/main.rt" <<'END_'
//! Times the gate, a Mutex and an RwLock.
#![tactic(auto)]
ghost use Rattle.std.specs.Prelude.{◌≡◌};
ghost use Rattle.st_events.specs.Sizes.{AreWithinLimits};
ghost use Rattle.st_rule.specs.Rule.{first_view};
ghost use Rattle.st_rule.specs.Seats.{IsSeatOf, sizes_of, terms_of};

mod gates;
mod judges;
mod locks;

use gates::{close_many, next_two, visit, visit_four, visit_two};
use judges::quiet_judge;
use locks::{lock_by_four, lock_by_two, lock_many, read_by_four, read_by_two, read_many, write_many};
use st_events::{Judge, NoMemory, Sizes};
use st_rule::{MutSeat, Shared};
use std::alloc::{AllocError, AllocFailed, Global};
use std::rt::Clock;
use std::sync::{Mutex, RwLock, Wait};
use std::thread::Threads;
use std::time::Instant;

/// Memory was refused, or the clock or the output failed.
#[derive(Clone, Copy, Debug)]
pub struct Failed;

impl From<NoMemory> for Failed {
    fn from(_no_memory: NoMemory) -> Failed {
        Failed
    }
}

impl From<AllocError> for Failed {
    fn from(_error: AllocError) -> Failed {
        Failed
    }
}

impl<T: Drop> From<AllocFailed<T>> for Failed {
    fn from(_error: AllocFailed<T>) -> Failed {
        Failed
    }
}

impl From<std::io::Error> for Failed {
    fn from(_error: std::io::Error) -> Failed {
        Failed
    }
}

const PASSES: u32 = 5;

const ROUNDS: u32 = 400_000;

fn nanos_since<R: Clock>(rt: &R, start: Instant) -> Result<u64, Failed> {
    Ok(u64::try_from(start.elapsed(rt)?.as_nanos()).unwrap_or(u64::MAX))
}

/// The best pass of each.
#[derive(Clone, Copy, Debug)]
struct Best {
    gate: u64,
    mutex: u64,
    rwlock: u64,
}

fn least() -> Best {
    Best {
        gate: u64::MAX,
        mutex: u64::MAX,
        rwlock: u64::MAX,
    }
}

fn row<R: Print>(rt: &R, name: &str, rounds: u64, best: Best) -> Result<(), Failed> {
    let all = rounds.saturating_mul(1_000_000_000);
    let to_mutex = best.gate.saturating_mul(10).checked_div(best.mutex).unwrap_or(0);
    let to_rwlock = best.gate.saturating_mul(10).checked_div(best.rwlock).unwrap_or(0);
    println!(rt;
        "{name:<32} {:>12} {:>12} {:>12} {:>5}.{} {:>5}.{}",
        all.checked_div(best.gate).unwrap_or(0),
        all.checked_div(best.mutex).unwrap_or(0),
        all.checked_div(best.rwlock).unwrap_or(0),
        to_mutex / 10,
        to_mutex % 10,
        to_rwlock / 10,
        to_rwlock % 10
    )?;
    Ok(())
}
END_
cat >> "$program/src/main.rt" <<'END_'

/// The locks alone: entering is a lock of the Mutex, and a read of the RwLock; closing is a lock, and a write.
fn locks_alone<R: Threads + Wait + Sync + Clock>(rt: &R, closing: bool) -> Result<Best, Failed> {
    let mutex = Mutex::new(0u64);
    let rwlock = RwLock::new(0u64);
    let mut best = least();
    for _ in 0..PASSES {
        let start = Instant::now(rt)?;
        lock_many(rt, &mutex, ROUNDS);
        best.mutex = best.mutex.min(nanos_since(rt, start)?);
        let start = Instant::now(rt)?;
        if closing {
            write_many(rt, &rwlock, ROUNDS);
        } else {
            read_many(rt, &rwlock, ROUNDS);
        }
        best.rwlock = best.rwlock.min(nanos_since(rt, start)?);
    }
    Ok(best)
}

/// The locks by two threads, or by four.
fn locks_by<R: Threads + Wait + Sync + Clock>(rt: &R, four: bool) -> Result<Best, Failed> {
    let mutex = Mutex::new(0u64);
    let rwlock = RwLock::new(0u64);
    let mut best = least();
    for _ in 0..PASSES {
        let start = Instant::now(rt)?;
        if four {
            lock_by_four(rt, &mutex, ROUNDS);
        } else {
            lock_by_two(rt, &mutex, ROUNDS);
        }
        best.mutex = best.mutex.min(nanos_since(rt, start)?);
        let start = Instant::now(rt)?;
        if four {
            read_by_four(rt, &rwlock, ROUNDS);
        } else {
            read_by_two(rt, &rwlock, ROUNDS);
        }
        best.rwlock = best.rwlock.min(nanos_since(rt, start)?);
    }
    Ok(best)
}

/// One pass of the gate: the times of each row.
#[derive(Clone, Copy, Debug)]
struct Times {
    close: u64,
    one: u64,
    two: u64,
    four: u64,
}

fn pass<J: Judge + Sync + Send, R: Threads + Wait + Sync + Clock>(
    rt: &R,
    alloc: Global,
    shared: &Shared<J>,
    mut main: MutSeat<J>,
) -> Result<Times, Failed>
    requires table { IsSeatOf J.meant shared.now main }
    requires first { main.view ≡ first_view (terms_of J.meant shared.now) }
    requires mutators { (sizes_of shared.now).mutators ≡ 4 }
{
    let front = next_two(alloc, shared, &mut main, 0)?;
    let back = next_two(alloc, shared, &mut main, 2)?;
    let start = Instant::now(rt)?;
    let one = visit(rt, shared, front.0, ROUNDS);
    let one_nanos = nanos_since(rt, start)?;
    let start = Instant::now(rt)?;
    let one = close_many(rt, shared, one, ROUNDS);
    let close = nanos_since(rt, start)?;
    let start = Instant::now(rt)?;
    let front = visit_two(rt, shared, one, front.1, ROUNDS);
    let two = nanos_since(rt, start)?;
    let start = Instant::now(rt)?;
    visit_four(rt, shared, front, back, ROUNDS);
    let four = nanos_since(rt, start)?;
    Ok(Times {
        close,
        one: one_nanos,
        two,
        four,
    })
}

fn sizes() -> Sizes
    ensures mutators { result.mutators ≡ 4 }
    ensures fits { AreWithinLimits result }
{
    Sizes {
        mutators: 4,
        lanes: 8,
        objects: 1,
        copies: 0,
        events: 1,
        calls: 0,
    }
}

/// A pass at a table of its own.
fn fresh_pass<R: Threads + Wait + Sync + Clock>(rt: &R, alloc: Global) -> Result<Times, Failed> {
    let judge = quiet_judge(alloc)?;
    let (shared, main) = Shared::make(alloc, &judge, &sizes())?;
    pass(rt, alloc, &shared, main)
}

fn bench<R: Threads + Wait + Sync + Clock + Print>(rt: &R, alloc: Global) -> Result<(), Failed> {
    let mut best = fresh_pass(rt, alloc)?;
    for _ in 1..PASSES {
        let next = fresh_pass(rt, alloc)?;
        best.one = best.one.min(next.one);
        best.close = best.close.min(next.close);
        best.two = best.two.min(next.two);
        best.four = best.four.min(next.four);
    }
    println!(rt; "rounds a second of the gate, of a Mutex and of an RwLock; the gate's time to theirs")?;
    let enter = Best { gate: best.one, ..locks_alone(rt, false)? };
    row(rt, "enter and leave, 1 thread", u64::from(ROUNDS), enter)?;
    let two = Best { gate: best.two, ..locks_by(rt, false)? };
    row(rt, "enter and leave, 2 threads", 2 * u64::from(ROUNDS), two)?;
    let four = Best { gate: best.four, ..locks_by(rt, true)? };
    row(rt, "enter and leave, 4 threads", 4 * u64::from(ROUNDS), four)?;
    let close = Best { gate: best.close, ..locks_alone(rt, true)? };
    row(rt, "close and open, 4 other numbers", u64::from(ROUNDS), close)
}

fn main(rt: HostRuntime) -> Result<(), Failed> {
    bench(&rt, rt.alloc())
}
END_
# The judge of the tests.
{
    printf '//! A judge to whom no verdict is right.\n\nuse crate::Failed;\nuse st_events::{Judge, Shape};\nuse std::alloc::Global;\nuse std::marker::Model;\n\n'
    sed -n '/^\/\/\/ A judge to whom/,$p' "$top/crates/tests_table/src/tests/judges.rt" \
        | sed -e '/^\/\/\/ A class of one number/,/^\/\/\/ A judge of a program with no field/{/with no field/!d;}' \
            -e 's/Fail> {/Failed> {/' -e 's/Err(Fail::from("the shape fits"))/Err(Failed)/'
} > "$program/src/judges.rt"

cd "$program"
rt run > "$scratch/out" 2> "$scratch/log" || { tail -40 "$scratch/log"; exit 1; }
cat "$scratch/out"
