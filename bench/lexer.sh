#!/bin/sh
# Measures how many megabytes of C the lexer reads in a second, beside `gcc -fsyntax-only` on the same text.
#
# The text is the ordinary one of bench/made_text.py. The program that is measured is a small crate over c_lexer,
# made in a folder of its own, so that the repository has no part that only serves the measure.
#
# usage: bench/lexer.sh [ROUNDS]      (rounds over the text, 50 where none are given)
set -eu
rounds=${1:-50}
top=$(cd "$(dirname "$0")/.." && pwd)
work=$(mktemp -d /tmp/lex_speed.XXXXXX)
trap 'rm -rf "$work"' EXIT

python3 "$top/bench/made_text.py" ordinary "$work/text.c"
bytes=$(wc -c < "$work/text.c")

mkdir -p "$work/crates/lex_speed/src"
cp -r "$top/crates/c_lexer" "$work/crates/c_lexer"
rm -rf "$work/crates/c_lexer/out"
printf 'c_lexer: thiserror\nlex_speed: c_lexer\n' > "$work/crates.txt"
cat > "$work/crates/lex_speed/src/main.rt" <<'RT'
//! Reads `text.c` and counts its tokens, as often as it is told.
#![tactic(auto)]

use c_lexer::{Lexer, TokenKind};
use std::fs;
use std::io;
use std::time::Instant;

/// The number of tokens up to the end or the first fault.
fn count(text: &[u8]) -> Option<usize> {
    if text.len() > 4194304 {
        return None;
    }
    let mut lexer = Lexer::new(text);
    for n in 0..text.len() + 1 {
        match lexer.next() {
            Err(_) => return None,
            Ok(token) => {
                if token.kind == TokenKind::End {
                    return Some(n);
                }
            }
        }
    }
    None
}

fn main(rt: HostRuntime) -> io::Result<()> {
    let text = fs::read(&rt, "text.c")?;
    let start = Instant::now(&rt)?;
    let mut tokens = None;
    for _ in 0..ROUNDS {
        tokens = count(&text);
    }
    let spent = start.elapsed(&rt)?;
    match tokens {
        None => println!(rt; "a fault, or a text that is too long")?,
        Some(n) => println!(rt; "{n} tokens, {} microseconds", spent.as_micros())?,
    }
    Ok(())
}
RT
sed -i "s/ROUNDS/$rounds/" "$work/crates/lex_speed/src/main.rt"
cp "$work/text.c" "$work/crates/lex_speed/text.c"
line=$(cd "$work/crates/lex_speed" && rt run 2> "$work/log" | grep tokens) || { cat "$work/log"; exit 1; }
echo "c_lexer: $line for $rounds rounds over $bytes bytes"
echo "$line" | python3 -c "
import sys
micros = int(sys.stdin.read().split()[2])
print('c_lexer: %.1f MB/s' % ($bytes * $rounds / micros))"
python3 - "$work/text.c" "$bytes" <<'PY'
import subprocess, sys, time
best = None
for _ in range(3):
    start = time.time()
    done = subprocess.run(["gcc", "-std=c99", "-w", "-fsyntax-only", sys.argv[1]])
    spent = time.time() - start
    best = spent if best is None else min(best, spent)
print("gcc -fsyntax-only: %.1f MB/s (status %d)" % (int(sys.argv[2]) / best / 1e6, done.returncode))
PY
