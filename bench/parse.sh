#!/bin/sh
# Times `parse` beside `tokens` on generated sources of 512 KiB and 1 MiB, outside the merge gate.
# Makes a scratch repository of the crates below st_parse and a small program, proves and builds the program (LLVM), and
# prints for each size the bytes, the tokens, and the best times of 9 passes of `tokens` and of `parse` in microseconds.
# The sources have 64 procedures with as many statements as fit. `parse` should take time linear in the bytes, and at most four
# times the time of `tokens`.
# Run it at any place of the repository:  sh bench/parse.sh
. "$(dirname "$0")/scratch.sh"

take st_parse
echo 'parsebench: st_lex st_parse anyhow' >> "$scratch/crates.txt"

mkdir -p "$scratch/crates/parsebench/src"
cat > "$scratch/crates/parsebench/src/main.rt" <<'END'
//! Lexes and parses generated sources and prints how fast.
#![tactic(auto)]

use anyhow::Result;
use st_lex::{MOST_SOURCE_BYTES, tokens};
use st_parse::parse;
use std::alloc::{AllocError, Global};
use std::time::Instant;

const HEAD: &[u8] = b"proc total(a: int, b: Node) {\n";
const LINE: &[u8] = b"  if (a <= 1048576 && !(shared.count == 0)) { b.next.value = a * 17 + (shared.count - 3); } // one turn\n";
const PROCEDURES: usize = 64;
const PASSES: usize = 9;

fn source(alloc: Global, bytes: usize) -> Result<Vec<u8>, AllocError> {
    let mut text = Vec::new(alloc);
    let each = (bytes / PROCEDURES).saturating_sub(HEAD.len() + 2);
    for _ in 0..PROCEDURES {
        text.extend_from_slice(HEAD)?;
        for _ in 0..each / LINE.len() {
            text.extend_from_slice(LINE)?;
        }
        text.extend_from_slice(b"}\n")?;
    }
    Ok(text)
}

fn main(rt: HostRuntime) -> Result<()> {
    for bytes in [MOST_SOURCE_BYTES / 2, MOST_SOURCE_BYTES] {
        let text = source(rt.alloc(), bytes)?;
        if text.len() > MOST_SOURCE_BYTES {
            return Ok(());
        }
        let size = text.len();
        let mut found = 0;
        let mut lexed = u64::MAX;
        let mut parsed = u64::MAX;
        for _ in 0..PASSES {
            let start = Instant::now(&rt)?;
            let list = tokens(rt.alloc(), &text)?;
            let micros = u64::try_from(start.elapsed(&rt)?.as_micros()).unwrap_or(u64::MAX);
            lexed = lexed.min(micros);
            let start = Instant::now(&rt)?;
            let program = parse(rt.alloc(), &text, &list)?;
            let micros = u64::try_from(start.elapsed(&rt)?.as_micros()).unwrap_or(u64::MAX);
            parsed = parsed.min(micros);
            found = list.len();
            drop(program);
        }
        println!(rt; "{size} bytes, {found} tokens: tokens {lexed} microseconds, parse {parsed} microseconds")?;
    }
    Ok(())
}
END

cd "$scratch/crates/parsebench"
rt run
