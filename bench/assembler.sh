#!/bin/sh
# Measures how long `assemble` takes for assembly texts of four million items, and beside it how long the same texts
# take to be read. Run by hand: bench/assembler.sh
#
# The texts are those of bench/made_assembly.py. The program that is measured is a small crate over alpha_asm and
# alpha_text, made in a folder of its own, so that the repository has no part that only serves the measure.
set -eu
top=$(cd "$(dirname "$0")/.." && pwd)
work=$(mktemp -d /tmp/assembler_speed.XXXXXX)
trap 'rm -rf "$work"' EXIT

mkdir -p "$work/crates/assembler_speed/src"
for crate in alpha_isa alpha_items alpha_asm alpha_lines alpha_text; do
    cp -r "$top/crates/$crate" "$work/crates/$crate"
    grep -E "^$crate:" "$top/crates.txt" >> "$work/crates.txt"
done
echo 'assembler_speed: alpha_asm alpha_isa alpha_items alpha_text anyhow' >> "$work/crates.txt"
cat > "$work/crates/assembler_speed/src/main.rt" <<'RT'
//! Assembles the texts that its words name, and says how long each took.
#![tactic(auto)]

use alpha_asm::assemble::assemble;
use alpha_text::read::read_asm;
use anyhow::Result;
use std::time::Instant;
use std::{env, fs};

fn measure(rt: &HostRuntime, path: &str) -> Result<()> {
    let alloc = rt.alloc();
    let text = fs::read(rt, path)?;
    let start = Instant::now(rt)?;
    let Ok(asm) = read_asm(alloc, text.as_slice()) else {
        println!(rt; "{path}: no assembly")?;
        return Ok(());
    };
    let read = start.elapsed(rt)?;
    let start = Instant::now(rt)?;
    let Ok(image) = assemble(alloc, &asm) else {
        println!(rt; "{path}: no image")?;
        return Ok(());
    };
    let took = start.elapsed(rt)?;
    let (items, words) = (asm.items.len(), image.words.len());
    let (took, read) = (took.as_millis(), read.as_millis());
    println!(rt; "{items} items, {words} words: {took} ms, read in {read} ms")?;
    Ok(())
}

fn main(rt: HostRuntime) -> Result<()> {
    let words: Vec<String> = env::args(&rt)?.collect(rt.alloc())?;
    for path in words.iter().skip(1) {
        measure(&rt, path.as_str())?;
    }
    Ok(())
}
RT
(cd "$work/crates/assembler_speed" && rt run > "$work/log" 2>&1) || true
program=$(find "$work/crates/assembler_speed/out" -maxdepth 1 -type f -name assembler_speed | head -1)
[ -n "$program" ] || { tail -60 "$work/log"; exit 1; }
for kind in short far row hostile; do
    python3 "$top/bench/made_assembly.py" "$kind" "$work/$kind.s"
    printf '%s: ' "$kind"
    "$program" "$work/$kind.s"
done
