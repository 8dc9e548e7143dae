#!/bin/sh
# Measures loads and stores of the memory of objects beside the same over a C array, and what objects take: one of
# 64 MiB that holds bytes alone, one that holds pointers everywhere, and many that begin and end.
#
# It needs rt, gcc and python3. The program that is measured is a small crate over mem_model, made in a folder of its
# own, so that the repository has no part that only serves the measure.
#
# usage: bench/memory.sh
set -eu
top=$(cd "$(dirname "$0")/.." && pwd)
work=$(mktemp -d /tmp/memory_speed.XXXXXX)
trap 'rm -rf "$work"' EXIT

mkdir -p "$work/crates/memory_speed/src"
cp -r "$top/crates/mem_model" "$work/crates/mem_model"
rm -rf "$work/crates/mem_model/out"
printf 'mem_model: thiserror\nmemory_speed: mem_model anyhow\n' > "$work/crates.txt"
cat > "$work/crates/memory_speed/src/main.rt" <<'RT'
//! Loads and stores of a memory, by the word that it is given.
#![tactic(auto)]

use mem_model::memory::Mem;
use mem_model::value::{Ptr, Value};
use std::env;
use std::time::Instant;

/// The largest object.
const SIZE: u64 = 67_108_864;

fn word_of(value: Value) -> u64 {
    match value {
        Value::Word(word) => word,
        _ => 0,
    }
}

/// The k-th number of an object.
fn number_at(object: u64, k: u32) -> Ptr {
    Ptr { object, offset: 8 * i64::from(k) }
}

/// Adds 1 to each of 1,024 numbers of 8 bytes, so often.
fn loads_and_stores(mem: &mut Mem, object: u64, rounds: u64) -> u64 {
    let mut sum = 0_u64;
    for _ in 0..rounds {
        for k in 0..1024_u32 {
            let at = number_at(object, k);
            let word = mem.load(at, 8, false).map_or(0, word_of).wrapping_add(1);
            sum = sum.wrapping_add(word);
            let _ = mem.store(at, 8, Value::Word(word));
        }
    }
    sum
}

/// Fills an object with bytes, or with pointers.
fn fill(mem: &mut Mem, object: u64, value: Value) {
    for k in 0..8_388_608_u32 {
        let at = number_at(object, k);
        if let Value::Unset = value {
            continue;
        }
        let _ = mem.store(at, 8, value);
    }
}

fn main(rt: HostRuntime) -> Result<(), anyhow::Error> {
    let alloc = rt.alloc();
    let words: Vec<String> = env::args(&rt)?.collect(alloc)?;
    let word = match words.as_slice() {
        [_, word] => word.as_str(),
        _ => "",
    };
    let mut mem = Mem::new(alloc);
    let start = Instant::now(&rt)?;
    let mut sum = 0;
    if word == "loop" {
        let object = mem.alloc_object(8192, true)?;
        fill_small(&mut mem, object);
        sum = loads_and_stores(&mut mem, object, 20_000);
    }
    if word == "making" || word == "bytes" || word == "pointers" {
        let object = mem.alloc_object(SIZE, true)?;
        if word == "bytes" {
            fill(&mut mem, object, Value::Word(7));
        }
        if word == "pointers" {
            fill(&mut mem, object, Value::Address(Ptr { object, offset: 8 }));
        }
    }
    if word == "ends" {
        for _ in 0..20_000_000_u64 {
            let object = mem.alloc_object(8, true)?;
            if mem.size_of(object).is_some() {
                mem.end_object(object);
            }
        }
    }
    if word == "nested" {
        for _ in 0..200_000_u64 {
            let first = mem.alloc_object(8, true)?;
            for _ in 1..100_u64 {
                let _ = mem.alloc_object(8, true)?;
            }
            for k in 0..100_u64 {
                let object = first.wrapping_add(k);
                if mem.size_of(object).is_some() {
                    mem.end_object(object);
                }
            }
        }
    }
    if word == "scattered" {
        let mut numbers = Vec::new(alloc);
        for _ in 0..1000_u64 {
            numbers.push(mem.alloc_object(8, true)?)?;
        }
        let mut chosen = 0_usize;
        for _ in 0..20_000_000_u64 {
            chosen = chosen.wrapping_mul(5).wrapping_add(7) % 1000;
            if let Some(object) = numbers.get_mut(chosen) {
                if mem.size_of(*object).is_some() {
                    mem.end_object(*object);
                }
                *object = mem.alloc_object(8, true)?;
            }
        }
    }
    let spent = start.elapsed(&rt)?;
    println!(rt; "{word} {} ms, sum {sum}", spent.as_millis())?;
    Ok(())
}

/// Writes each of the 1,024 numbers once.
fn fill_small(mem: &mut Mem, object: u64) {
    for k in 0..1024_u32 {
        let _ = mem.store(number_at(object, k), 8, Value::Word(0));
    }
}
RT
cat > "$work/plain.c" <<'C'
#include <stdint.h>
#include <stdio.h>
#include <time.h>

static volatile uint64_t numbers[1024];

int main(void) {
    struct timespec from, to;
    uint64_t sum = 0;
    clock_gettime(CLOCK_MONOTONIC, &from);
    for (int r = 0; r < 20000; r++)
        for (int k = 0; k < 1024; k++) {
            uint64_t word = numbers[k] + 1;
            sum += word;
            numbers[k] = word;
        }
    clock_gettime(CLOCK_MONOTONIC, &to);
    printf("C array %ld ms, sum %llu\n", (to.tv_sec - from.tv_sec) * 1000 + (to.tv_nsec - from.tv_nsec) / 1000000, (unsigned long long)sum);
    return 0;
}
C
gcc -O2 -o "$work/plain" "$work/plain.c"
(cd "$work/crates/memory_speed" && rt run > "$work/log" 2>&1) || true
program=$(find "$work/crates/memory_speed/out" -maxdepth 1 -type f -name memory_speed | head -1)
[ -n "$program" ] || { tail -20 "$work/log"; exit 1; }
python3 - "$program" "$work/plain" <<'PY'
import os, subprocess, sys

def run(words):
    """What a program prints, and the most memory that it touched."""
    child = subprocess.Popen(words, stdout=subprocess.PIPE)
    line = child.stdout.read().decode().strip()
    _, status, usage = os.wait4(child.pid, 0)
    return line, status, usage.ru_maxrss * 1024

program, plain = sys.argv[1:]
print("20,480,000 loads and as many stores of 8 bytes:")
print("  mem_model", run([program, "loop"])[0])
print("  " + run([plain])[0])
none = run([program, "none"])[2]
for word in ["making", "bytes", "pointers"]:
    line, status, touched = run([program, word])
    print("an object of 64 MiB, %s: %.2f bytes a cell (status %d)" % (line, (touched - none) / 67108864, status))
for word, order in [("ends", "one by one"), ("nested", "a hundred at a time, the first of them first"),
                    ("scattered", "of a thousand that live, in no order")]:
    line, status, touched = run([program, word])
    print("20,000,000 objects that begin and end, %s: %s, %d bytes (status %d)" % (order, line, touched - none, status))
PY
