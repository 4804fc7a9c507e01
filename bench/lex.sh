#!/bin/sh
# Times `tokens` on generated sources of 512 KiB and 1 MiB, outside the merge gate.
# Makes a scratch repository of the crates below st_lex and a small program, proves and builds the program (LLVM), and
# prints for each size the bytes, the tokens, the best time of 25 passes in microseconds, and MB/s (10^6 bytes a second).
# Run it at any place of the repository:  sh bench/lex.sh
. "$(dirname "$0")/scratch.sh"

take st_lex
echo 'lexbench: st_lex anyhow' >> "$scratch/crates.txt"

mkdir -p "$scratch/crates/lexbench/src"
cat > "$scratch/crates/lexbench/src/main.rt" <<'END'
//! Lexes generated sources and prints how fast.
#![tactic(auto)]

use anyhow::Result;
use st_lex::{LexError, MOST_SOURCE_BYTES, tokens};
use std::alloc::{AllocError, Global};
use std::time::Instant;

const LINE: &[u8] = b"    while balance <= 1048576 && !shared.open { total = total + 17; } // the next turn\n";
const PASSES: usize = 25;

fn source(alloc: Global, bytes: usize) -> Result<Vec<u8>, AllocError> {
    let mut text = Vec::new(alloc);
    for _ in 0..bytes / LINE.len() {
        text.extend_from_slice(LINE)?;
    }
    Ok(text)
}

fn count(alloc: Global, text: &[u8]) -> Result<usize, LexError> {
    if text.len() > MOST_SOURCE_BYTES {
        return Ok(0);
    }
    Ok(tokens(alloc, text)?.len())
}

fn main(rt: HostRuntime) -> Result<()> {
    for bytes in [MOST_SOURCE_BYTES / 2, MOST_SOURCE_BYTES] {
        let text = source(rt.alloc(), bytes)?;
        let size = text.len() as u64;
        let mut found = 0;
        let mut best = u64::MAX;
        for _ in 0..PASSES {
            let start = Instant::now(&rt)?;
            found = count(rt.alloc(), &text)?;
            let micros = u64::try_from(start.elapsed(&rt)?.as_micros()).unwrap_or(u64::MAX);
            best = best.min(micros);
        }
        let speed = size.checked_div(best).unwrap_or(0);
        println!(rt; "{size} bytes, {found} tokens: {best} microseconds, {speed} MB/s")?;
    }
    Ok(())
}
END

cd "$scratch/crates/lexbench"
rt run
