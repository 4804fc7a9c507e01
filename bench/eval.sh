#!/bin/sh
# Times the evaluator of checks beside plain recursive functions over the same vector of words, outside the merge gate.
# Makes a scratch repository of st_events, st_resolved, st_check_meaning, st_eval and a small program, proves and builds the program (LLVM), and prints for each
# check the reads a second of the evaluator and of the plain function, by the best of 15 passes, and the ratio of the times; then how much memory
# `make` asks for at a large program.
# The lists are 25 of 4,000 nodes: a longer one would be Deep, since each node is a call and 4,096 may be open.
# Run it at any place of the repository:  sh bench/eval.sh
. "$(dirname "$0")/scratch.sh"

take st_eval
echo 'evalbench: st_events st_resolved st_eval anyhow' >> "$scratch/crates.txt"
program=$scratch/crates/evalbench
mkdir -p "$program/src"

cat > "$program/src/programs.rt" <<'END_'
//! The programs whose checks are timed.

use st_events::{Kind, Site};
use st_resolved::{Boxed, Check, Expr, Items, Operator, Pred, Resolved};
use std::alloc::{AllocError, Global};

const HERE: Site = Site { line: 1, column: 1 };

fn field(alloc: Global, object: Expr, field: u8) -> Result<Expr, AllocError> {
    Ok(Expr::Field {
        object: Boxed::new(alloc, object)?,
        field,
        at: HERE,
    })
}

fn binary(alloc: Global, left: Expr, operator: Operator, right: Expr) -> Result<Expr, AllocError> {
    let left = Boxed::new(alloc, left)?;
    let right = Boxed::new(alloc, right)?;
    Ok(Expr::Binary {
        operator,
        left,
        right,
        at: HERE,
    })
}

fn both(alloc: Global, left: Expr, right: Expr) -> Result<Expr, AllocError> {
    let left = Boxed::new(alloc, left)?;
    let right = Boxed::new(alloc, right)?;
    Ok(Expr::Both { left, right })
}

fn either(alloc: Global, left: Expr, right: Expr) -> Result<Expr, AllocError> {
    let left = Boxed::new(alloc, left)?;
    let right = Boxed::new(alloc, right)?;
    Ok(Expr::Either { left, right })
}

fn call(alloc: Global, pred: u8, args: Items<Expr>) -> Expr {
    let _alloc = alloc;
    Expr::Call { pred, args }
}

fn one(alloc: Global, arg: Expr) -> Result<Items<Expr>, AllocError> {
    let mut args = Items::new(alloc);
    args.push(arg)?;
    Ok(args)
}

fn three(alloc: Global, a: Expr, b: Expr, c: Expr) -> Result<Items<Expr>, AllocError> {
    let mut args = one(alloc, a)?;
    args.push(b)?;
    args.push(c)?;
    Ok(args)
}

fn is_null(alloc: Global, expr: Expr) -> Result<Expr, AllocError> {
    binary(alloc, expr, Operator::Equal, Expr::Null)
}

/// `n.next`
fn next(alloc: Global) -> Result<Expr, AllocError> {
    field(alloc, Expr::Local(0), 1)
}

/// `n == null || n.next == null`
fn no_pair(alloc: Global) -> Result<Expr, AllocError> {
    let empty = is_null(alloc, Expr::Local(0))?;
    let last = is_null(alloc, next(alloc)?)?;
    either(alloc, empty, last)
}

/// `n.val <= n.next.val`
fn pair_in_order(alloc: Global) -> Result<Expr, AllocError> {
    let here = field(alloc, Expr::Local(0), 0)?;
    let there = field(alloc, next(alloc)?, 0)?;
    binary(alloc, here, Operator::LessEq, there)
}

/// `sorted(n.next)`
fn rest_sorted(alloc: Global) -> Result<Expr, AllocError> {
    Ok(call(alloc, 0, one(alloc, next(alloc)?)?))
}

/// `n == null || n.next == null || n.val <= n.next.val && sorted(n.next)`
fn sorted(alloc: Global) -> Result<Expr, AllocError> {
    let none = no_pair(alloc)?;
    let pair = both(alloc, pair_in_order(alloc)?, rest_sorted(alloc)?)?;
    either(alloc, none, pair)
}

/// `lo <= n.key && n.key <= hi`
fn in_range(alloc: Global) -> Result<Expr, AllocError> {
    let low = binary(alloc, Expr::Local(1), Operator::LessEq, field(alloc, Expr::Local(0), 0)?)?;
    let high = binary(alloc, field(alloc, Expr::Local(0), 0)?, Operator::LessEq, Expr::Local(2))?;
    both(alloc, low, high)
}

/// `ordered(n.left, lo, n.key)`
fn left_ordered(alloc: Global) -> Result<Expr, AllocError> {
    let left = field(alloc, Expr::Local(0), 1)?;
    let key = field(alloc, Expr::Local(0), 0)?;
    Ok(call(alloc, 1, three(alloc, left, Expr::Local(1), key)?))
}

/// `ordered(n.right, n.key, hi)`
fn right_ordered(alloc: Global) -> Result<Expr, AllocError> {
    let right = field(alloc, Expr::Local(0), 2)?;
    let key = field(alloc, Expr::Local(0), 0)?;
    Ok(call(alloc, 1, three(alloc, right, key, Expr::Local(2))?))
}

/// `n == null || lo <= n.key && n.key <= hi && ordered(n.left, lo, n.key) && ordered(n.right, n.key, hi)`
fn ordered(alloc: Global) -> Result<Expr, AllocError> {
    let none = is_null(alloc, Expr::Local(0))?;
    let range = both(alloc, in_range(alloc)?, left_ordered(alloc)?)?;
    let whole = both(alloc, range, right_ordered(alloc)?)?;
    either(alloc, none, whole)
}

fn check(alloc: Global, body: Expr) -> Result<Check, AllocError> {
    Ok(Check {
        args: Items::from_slice(alloc, &[0])?,
        body,
        at: HERE,
    })
}

/// Check 0 is `sorted(n)`, check 1 `ordered(n, 0, 65535)`.
pub fn checks(alloc: Global) -> Result<Resolved, AllocError> {
    let mut preds = Items::new(alloc);
    preds.push(Pred {
        params: Items::from_slice(alloc, &[Kind::Ref(1)])?,
        result: Kind::Bool,
        body: sorted(alloc)?,
    })?;
    preds.push(Pred {
        params: Items::from_slice(alloc, &[Kind::Ref(2), Kind::Int, Kind::Int])?,
        result: Kind::Bool,
        body: ordered(alloc)?,
    })?;
    let mut checks = Items::new(alloc);
    checks.push(check(alloc, call(alloc, 0, one(alloc, Expr::Local(0))?))?)?;
    let all = three(alloc, Expr::Local(0), Expr::Number(0), Expr::Number(65_535))?;
    checks.push(check(alloc, call(alloc, 1, all))?)?;
    Ok(Resolved {
        preds,
        procs: Items::new(alloc),
        threads: Items::new(alloc),
        checks,
    })
}

/// A sum of 63 numbers and a local, which has as many numbers as an expression of 128 tokens can have, compared with one.
fn long(alloc: Global) -> Result<Expr, AllocError> {
    let mut sum = Expr::Local(0);
    for number in 0..62 {
        sum = binary(alloc, sum, Operator::Add, Expr::Number(number))?;
    }
    binary(alloc, sum, Operator::Less, Expr::Number(7))
}

/// 64 predicates and 1,024 checks, each with a body as long as its tokens allow.
pub fn large(alloc: Global) -> Result<Resolved, AllocError> {
    let mut preds = Items::new(alloc);
    for _ in 0..64 {
        preds.push(Pred {
            params: Items::from_slice(alloc, &[Kind::Int])?,
            result: Kind::Bool,
            body: long(alloc)?,
        })?;
    }
    let mut checks = Items::new(alloc);
    for _ in 0..1_024 {
        checks.push(check(alloc, long(alloc)?)?)?;
    }
    Ok(Resolved {
        preds,
        procs: Items::new(alloc),
        threads: Items::new(alloc),
        checks,
    })
}
END_

cat > "$program/src/plain.rt" <<'END_'
//! The same predicates as plain recursive functions.

/// A word of an object of three words, by the object's number; 0 where there is none.
pub fn word(heap: &[[u64; 3]], obj: u64, field: usize) -> u64 {
    match heap.get(obj as usize) {
        None => 0,
        Some(words) => words.get(field).copied().unwrap_or(0),
    }
}

/// Whether the list is sorted, as far as so many nodes go.
pub fn sorted(heap: &[[u64; 3]], node: u64, most: u32) -> bool {
    if most == 0 || node == 0 || word(heap, node, 1) == 0 {
        return true;
    }
    let next = word(heap, node, 1);
    word(heap, node, 0).cast_signed() <= word(heap, next, 0).cast_signed() && sorted(heap, next, most - 1)
}

/// Whether the tree is ordered, as far as this depth.
pub fn ordered(heap: &[[u64; 3]], node: u64, low: i64, high: i64, most: u32) -> bool {
    if most == 0 || node == 0 {
        return true;
    }
    let key = word(heap, node, 0).cast_signed();
    low <= key
        && key <= high
        && ordered(heap, word(heap, node, 1), low, key, most - 1)
        && ordered(heap, word(heap, node, 2), key, high, most - 1)
}
END_

cat > "$program/src/evaluating.rt" <<'END_'
//! A program with an evaluator that was made for it.
ghost use Rattle.std.specs.Prelude.{IfOk};
ghost use Rattle.st_resolved.specs.Views.{program_of};
ghost use Rattle.st_eval.specs.Evaluations.{IsMadeFor};

use crate::plain::word;
use st_eval::{Ask, Eval};
use st_events::{Args, Plain};
use st_resolved::Resolved;
use std::alloc::{AllocError, Global};

/// How many cells were read, and whether each check held.
#[derive(Clone, Copy, Debug)]
pub struct Evaluated {
    pub reads: u64,
    pub holds: bool,
}

/// An evaluator for the program.
pub fn made(alloc: Global, program: &Resolved) -> Result<Eval, AllocError>
    ensures { IfOk result (λ e. IsMadeFor (program_of program.now) e) }
{
    match Eval::make(alloc, program, 1_000_000) {
        Ok(eval) => Ok(eval),
        Err(_) => Err(AllocError),
    }
}

/// One check of one object.
pub fn evaluate(eval: &mut Eval, program: &Resolved, heap: &[[u64; 3]], site: u16, node: u64) -> Evaluated
    requires { IsMadeFor (program_of program.now) eval.old }
    ensures { IsMadeFor (program_of program.now) eval.new }
{
    let args = Args {
        count: 1,
        words: [node, 0, 0, 0],
    };
    eval.start(program, site, args);
    let mut reads: u64 = 0;
    let mut reply = 0;
    for _ in 0..u64::MAX {
        match eval.next(program, reply) {
            Ask::Done(plain) => {
                return Evaluated {
                    reads,
                    holds: plain == Plain::Holds,
                };
            }
            Ask::Read { obj, field } => {
                reply = word(heap, u64::from(obj), usize::from(field));
                reads = reads.wrapping_add(1);
            }
        }
    }
    Evaluated {
        reads,
        holds: false,
    }
}
END_

cat > "$program/src/main.rt" <<'END_'
//! Times checks by the evaluator and by plain functions.
#![tactic(auto)]
ghost use Rattle.st_resolved.specs.Views.{program_of};
ghost use Rattle.st_eval.specs.Evaluations.{IsMadeFor};

mod evaluating;
mod plain;
mod programs;

use anyhow::Result;
use evaluating::{Evaluated, evaluate, made};
use st_eval::Eval;
use st_resolved::Resolved;
use std::alloc::{AllocError, Global};
use std::fs;
use std::time::Instant;

const PASSES: u32 = 15;
const LISTS: u64 = 25;
const LENGTH: u64 = 4_000;
const TREE: u64 = 10_000;

/// Lists of nodes (`val`, `next`), numbered from 1, each list behind the one before.
fn lists(alloc: Global) -> Result<Vec<[u64; 3]>, AllocError> {
    let mut heap = Vec::new(alloc);
    heap.push([0, 0, 0])?;
    for node in 1..=LISTS * LENGTH {
        let next = if node % LENGTH == 0 { 0 } else { node + 1 };
        heap.push([node, next, 0])?;
    }
    Ok(heap)
}

/// A tree (`key`, `left`, `right`) whose node k has the nodes 2 k and 2 k + 1 below it; its keys are in order.
fn tree(alloc: Global) -> Result<Vec<[u64; 3]>, AllocError> {
    let mut heap = Vec::new(alloc);
    heap.push([0, 0, 0])?;
    let mut first: u64 = 1;
    let mut span: u64 = 16_384;
    for node in 1..=TREE {
        if node >= first.saturating_mul(2) {
            first = first.saturating_mul(2);
            span = span / 2;
        }
        let key = span.saturating_mul(2 * (node - first.min(node)) + 1);
        let left = if 2 * node <= TREE { 2 * node } else { 0 };
        let right = if 2 * node < TREE { 2 * node + 1 } else { 0 };
        heap.push([key, left, right])?;
    }
    Ok(heap)
}

/// All lists, or the tree.
fn all_checks(eval: &mut Eval, program: &Resolved, heap: &[[u64; 3]], site: u16, checks: u64) -> Evaluated
    requires { IsMadeFor (program_of program.now) eval.old }
    ensures { IsMadeFor (program_of program.now) eval.new }
{
    let mut all = Evaluated {
        reads: 0,
        holds: true,
    };
    for check in 0..checks {
        let one = evaluate(eval, program, heap, site, (check.wrapping_mul(LENGTH)).wrapping_add(1));
        all.reads = all.reads.wrapping_add(one.reads);
        all.holds = all.holds && one.holds;
    }
    all
}

fn plain_checks(heap: &[[u64; 3]], site: u16, checks: u64) -> bool {
    let mut holds = true;
    for check in 0..checks {
        let node = (check.wrapping_mul(LENGTH)).wrapping_add(1);
        let one = if site == 0 {
            plain::sorted(heap, node, 5_000)
        } else {
            plain::ordered(heap, node, 0, 65_535, 100)
        };
        holds = holds && one;
    }
    holds
}

fn nanos_since(rt: &HostRuntime, start: Instant) -> Result<u64> {
    Ok(u64::try_from(start.elapsed(rt)?.as_nanos()).unwrap_or(u64::MAX))
}

fn a_second(count: u64, nanos: u64) -> u64 {
    count.saturating_mul(1_000_000_000).checked_div(nanos).unwrap_or(0)
}

/// A row: reads a second of both, and ten times the ratio of the times.
fn row(rt: &HostRuntime, program: &Resolved, heap: &[[u64; 3]], site: u16, checks: u64, name: &str) -> Result<()> {
    let mut eval = made(rt.alloc(), program)?;
    let mut best = u64::MAX;
    let mut plain_best = u64::MAX;
    let mut all = Evaluated {
        reads: 0,
        holds: false,
    };
    let mut plain_holds = false;
    for _ in 0..PASSES {
        let start = Instant::now(rt)?;
        all = all_checks(&mut eval, program, heap, site, checks);
        best = best.min(nanos_since(rt, start)?);
        let start = Instant::now(rt)?;
        plain_holds = plain_checks(heap, site, checks);
        plain_best = plain_best.min(nanos_since(rt, start)?);
    }
    let tenths = best.saturating_mul(10).checked_div(plain_best).unwrap_or(0);
    println!(rt;
        "{name}: {} reads, holds {} and {plain_holds}; {} reads a second, plain {}; {}.{} times as long",
        all.reads,
        all.holds,
        a_second(all.reads, best),
        a_second(all.reads, plain_best),
        tenths / 10,
        tenths % 10
    )?;
    Ok(())
}

/// What the system says of the memory of this process.
fn memory(rt: &HostRuntime, when: &str) -> Result<()> {
    let text = fs::read_to_string(rt, "/proc/self/status")?;
    for line in text.lines() {
        if line.starts_with("VmSize") {
            println!(rt; "{when}: {line}")?;
        }
    }
    Ok(())
}

fn main(rt: HostRuntime) -> Result<()> {
    let alloc = rt.alloc();
    let program = programs::checks(alloc)?;
    row(&rt, &program, &lists(alloc)?, 0, LISTS, "25 lists of 4,000 nodes, sorted")?;
    row(&rt, &program, &tree(alloc)?, 1, 1, "a tree of 10,000 nodes, ordered")?;
    let large = programs::large(alloc)?;
    memory(&rt, "before make of a large program")?;
    let eval = made(alloc, &large)?;
    memory(&rt, "behind it")?;
    drop(eval);
    Ok(())
}
END_

mkdir -p "$program/proofs/evaluating/evaluate" "$program/proofs/all_checks" "$program/proofs/row" "$program/proofs/plain/+sorted" "$program/proofs/plain/+ordered"
keeps_the_evaluator() { # the function, and its loop
    cat > "$program/proofs/$(echo "$1" | tr . /)/Invariants.antt" <<END_
use Rattle.st_resolved.specs.Views.{program_of}
use Rattle.st_eval.specs.Evaluations.{IsMadeFor}
use Rattle.evalbench.proofs.$1.Given as goal

abbrev pub invariant-$2 : goal.invariant-$2
invariant-$2 l = IsMadeFor (program_of l.program) l.eval
END_
}
keeps_the_evaluator evaluating.evaluate loop
keeps_the_evaluator all_checks loop-check
keeps_the_evaluator row loop
for call in sorted ordered; do
    cat > "$program/proofs/plain/+$call/Invariants.antt" <<END_
use Rattle.evalbench.proofs.plain.+$call.Given as goal

abbrev pub decreases-$call : goal.decreases-$call
decreases-$call l = l.most
END_
done

cd "$program"
rt run
