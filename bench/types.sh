#!/bin/sh
# Times the types of a source beside its tokens and its tree, on generated sources of 256 KiB, 512 KiB and 1 MiB, outside the merge gate.
# Makes a scratch repository of the crates below st_source and a small program, proves and builds the program (LLVM), and
# prints for each size the bytes and the best times of 9 passes of `tokens`, of `parse`, of `read_source`, which does both and then checks the
# types, and of dropping what it gives, in microseconds. The sources have 64 procedures with as many statements as fit, and keep the rules: in the
# first three each statement is an `if` with a store in it, in the others a short assignment. What `read_source` takes beyond
# `tokens` and `parse` is the time of `check_types`: it should be linear in the bytes, and at most twice the time of `parse`.
# Run it at any place of the repository:  sh bench/types.sh
. "$(dirname "$0")/scratch.sh"

take st_source
echo 'typesbench: st_lex st_parse st_source anyhow' >> "$scratch/crates.txt"

mkdir -p "$scratch/crates/typesbench/src"
cat > "$scratch/crates/typesbench/src/main.rt" <<'END'
//! Reads generated sources and prints how fast each stage is.
#![tactic(auto)]
ghost use Rattle.std.specs.Prelude.{◌≤◌, length};
ghost use Rattle.st_lex.specs.declared.limits.TheConstants.{MOST_SOURCE_BYTES};

use anyhow::Result;
use st_lex::{MOST_SOURCE_BYTES, tokens};
use st_parse::parse;
use st_source::read_source;
use std::alloc::{AllocError, Global};
use std::time::Instant;

const FRONT: &[u8] = b"class Node { next: Node; value: int; }\nshared { count: int; }\n";
const LINE: &[u8] = b"  if (a <= 1048576 && !(shared.count == 0)) { b.next.value = a * 17 + (shared.count - 3); } // one turn\n";
const SHORT_LINE: &[u8] = b"  a = a + 1;\n";
const PROCEDURES: u8 = 64;
const PASSES: usize = 9;

fn add_procedure(text: &mut Vec<u8>, number: u8, line: &[u8], lines: usize) -> Result<(), AllocError> {
    text.extend_from_slice(b"proc total")?;
    text.push(b'0' + number / 10)?;
    text.push(b'0' + number % 10)?;
    text.extend_from_slice(b"(a: int, b: Node) {\n")?;
    for _ in 0..lines {
        text.extend_from_slice(line)?;
    }
    text.extend_from_slice(b"}\n")?;
    Ok(())
}

fn source(alloc: Global, bytes: usize, line: &[u8]) -> Result<Vec<u8>, AllocError> {
    let mut text = Vec::new(alloc);
    text.extend_from_slice(FRONT)?;
    let lines = (bytes / 64).saturating_sub(40) / line.len().max(1);
    for number in 0..PROCEDURES {
        add_procedure(&mut text, number, line, lines)?;
    }
    Ok(text)
}

/// So many microseconds since then.
fn micros_since(rt: &HostRuntime, start: Instant) -> Result<u64> {
    Ok(u64::try_from(start.elapsed(rt)?.as_micros()).unwrap_or(u64::MAX))
}

/// The best times of some passes, in microseconds.
#[derive(Clone, Copy, Debug)]
struct Best {
    tokens: u64,
    parse: u64,
    whole: u64,
    dropped: u64,
}

/// `tokens` and `parse` by themselves.
fn pass_of_tree(rt: &HostRuntime, text: &[u8], best: &mut Best) -> Result<usize>
    requires { length text.now ≤ MOST_SOURCE_BYTES }
{
    let start = Instant::now(rt)?;
    let list = tokens(rt.alloc(), text)?;
    best.tokens = best.tokens.min(micros_since(rt, start)?);
    let start = Instant::now(rt)?;
    let program = parse(rt.alloc(), text, &list)?;
    best.parse = best.parse.min(micros_since(rt, start)?);
    drop(program);
    Ok(list.len())
}

/// `read_source`, and dropping what it gives.
fn pass_of_source(rt: &HostRuntime, text: &[u8], best: &mut Best) -> Result<bool> {
    let start = Instant::now(rt)?;
    let answer = read_source(rt.alloc(), text);
    best.whole = best.whole.min(micros_since(rt, start)?);
    let accepted = answer.is_ok();
    let start = Instant::now(rt)?;
    drop(answer);
    best.dropped = best.dropped.min(micros_since(rt, start)?);
    Ok(accepted)
}

/// A row of one source.
fn row(rt: &HostRuntime, bytes: usize, line: &[u8]) -> Result<()> {
    let text = source(rt.alloc(), bytes, line)?;
    let mut best = Best {
        tokens: u64::MAX,
        parse: u64::MAX,
        whole: u64::MAX,
        dropped: u64::MAX,
    };
    let mut found = 0;
    let mut accepted = false;
    if text.len() <= MOST_SOURCE_BYTES {
        for _ in 0..PASSES {
            found = pass_of_tree(rt, &text, &mut best)?;
            accepted = pass_of_source(rt, &text, &mut best)?;
        }
    }
    let types = best.whole.saturating_sub(best.tokens.saturating_add(best.parse));
    println!(rt;
        "{} bytes, {found} tokens, accepted {accepted}: tokens {}, parse {}, read_source {}, so types {types}; drop {} microseconds",
        text.len(),
        best.tokens,
        best.parse,
        best.whole,
        best.dropped
    )?;
    Ok(())
}

fn main(rt: HostRuntime) -> Result<()> {
    for bytes in [MOST_SOURCE_BYTES / 4, MOST_SOURCE_BYTES / 2, MOST_SOURCE_BYTES] {
        row(&rt, bytes, LINE)?;
    }
    for bytes in [MOST_SOURCE_BYTES / 4, MOST_SOURCE_BYTES / 2, MOST_SOURCE_BYTES] {
        row(&rt, bytes, SHORT_LINE)?;
    }
    Ok(())
}
END

cd "$scratch/crates/typesbench"
rt run
