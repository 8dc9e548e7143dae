#!/bin/sh
# Measures the instructions in a second of the interpreter of programs over virtual registers (suifvm_run), on a loop of
# 100 million instructions, beside a plain C interpreter of the same instructions with a switch, compiled with gcc -O2.
# Run by hand at the top of the repository: sh bench/vm_speed.sh. It works on a copy in a folder of its own under /tmp,
# where the crates are proved, and reads the program's text with the reader of the rows (row_vm_texts).
#
# The loop has 5 instructions: a mark, a sum of two 64-bit words, a difference of two 32-bit ones that traps where it
# overflows, a comparison and a branch. Then it runs 10 million calls, each with an object of its own, and prints the
# most memory that the program had at once, and that for one such call.
set -eu

top=$(pwd)
room=$(mktemp -d /tmp/vm_speed.XXXXXX)
trap 'rm -rf "$room"' EXIT
rounds=20000000
own='anyhow bk_io row_vm_texts suifvm_run'

mkdir -p "$room/repo/crates"
cp "$top/HANDLES" "$room/repo/"
# all that the program stands on, in the order of crates.txt
python3 - "$top/crates.txt" $own > "$room/names" <<'CODE'
import sys
uses = {}
for line in open(sys.argv[1]):
    name, _, rest = line.strip().partition(':')
    if name and not name.startswith('#'):
        uses[name] = rest.split()
wanted, left = set(), sys.argv[2:]
while left:
    name = left.pop()
    if name in uses and name not in wanted:
        wanted.add(name)
        left += uses[name]
print('\n'.join(name for name in uses if name in wanted))
CODE
while read -r crate; do
    cp -r "$top/crates/$crate" "$room/repo/crates/"
    grep -E "^$crate:" "$top/crates.txt" >> "$room/repo/crates.txt"
done < "$room/names"
echo "vm_speed: $own" >> "$room/repo/crates.txt"
mkdir -p "$room/repo/crates/vm_speed/src"

cat > "$room/repo/crates/vm_speed/src/main.rt" <<'CODE'
//! Runs a loop over virtual registers, and says how long it took.
#![tactic(auto)]

use anyhow::Result;
use bk_io::empty::{EmptySource, NullSink};
use row_vm_texts::reader::Reader;
use std::time::Instant;
use std::{env, fs};
use suifvm_run::run_vm;

fn main(rt: HostRuntime) -> Result<()> {
    let alloc = rt.alloc();
    let words: Vec<String> = env::args(&rt)?.collect(alloc)?;
    for path in words.iter().skip(1) {
        let text = fs::read_to_string(&rt, path.as_str())?;
        let mut names = Vec::new(alloc);
        for line in text.lines() {
            if let Some(name) = line.strip_prefix("func ") {
                names.push(name.to_string(alloc)?)?;
            }
        }
        let mut reader = Reader::new(alloc, names);
        for line in text.lines() {
            reader.take(line)?;
        }
        let program = reader.program()?;
        let start = Instant::now(&rt)?;
        let ending = run_vm(alloc, &program, &mut EmptySource, &mut NullSink, 1_000_000_000);
        let took = start.elapsed(&rt)?;
        println!(rt; "rattle {ending:?} in {} ms", took.as_millis())?;
    }
    Ok(())
}
CODE

cat > "$room/loop.vm" <<CODE
func main
params 0
registers 6
B0:
0 ldc.s32 v0, $rounds
1 ldc.s32 v1, 1
2 ldc.s64 v2, 7
3 ldc.s64 v3, 0
4 ldc.s32 v4, 0
B1:
5 mrk
6 add.u64 v3, v3, v2
7 sub.s32 v0, v0, v1
8 sl.s32 v5, v4, v0
9 btrue.s32 v5, B1
B2:
10 ret.s32 v4
CODE

# 10 million calls, one after another, of a function with an object that it writes and reads
cat > "$room/calls.vm" <<CODE
func main
params 0
registers 3
B0:
0 ldc.s32 v0, 10000000
1 ldc.s32 v1, 1
B1:
2 mrk
3 cal v2, keep, v0
4 sub.s32 v0, v0, v1
5 btrue.s32 v0, B1
B2:
6 ret.s32 v2
func keep
params 1
registers 3
object 8 8
B0:
7 lda v1, m0+0
8 str.s32 v1, 4, v0
9 lod.s32 v2, v1, 4
10 ret.s32 v2
CODE
# and one
sed 's/10000000/1/' "$room/calls.vm" > "$room/call.vm"

cat > "$room/plain.c" <<'CODE'
#include <stdint.h>
#include <stdio.h>
#include <stdlib.h>
#include <time.h>

enum op { LDC, MRK, ADD_U64, SUB_S32, SL_S32, BTRUE, RET };
struct insn { enum op op; uint32_t to, a, b; uint64_t word; };

static uint64_t turns = 1000000000, reg[8], done;

static int run(const struct insn *text)
{
    for (const struct insn *at = text;; at++) {
        done++;
        switch (at->op) {
        case LDC: reg[at->to] = at->word; break;
        case MRK: if (!turns--) return -1; break;
        case ADD_U64: reg[at->to] = reg[at->a] + reg[at->b]; break;
        case SUB_S32: {
            int64_t r = (int64_t)(int32_t)reg[at->a] - (int32_t)reg[at->b];
            if (r != (int32_t)r) return -3;
            reg[at->to] = r;
            break;
        }
        case SL_S32: reg[at->to] = (int32_t)reg[at->a] < (int32_t)reg[at->b]; break;
        case BTRUE: if (reg[at->a]) at = text + at->word - 1; break;
        case RET: return reg[at->a] & 255;
        }
    }
}

int main(int argc, char **argv)
{
    struct insn text[] = {{LDC, 0, 0, 0, strtoull(argv[1], 0, 10)}, {LDC, 1, 0, 0, 1}, {LDC, 2, 0, 0, 7}, {LDC, 3},
                          {LDC, 4}, {MRK}, {ADD_U64, 3, 3, 2}, {SUB_S32, 0, 0, 1}, {SL_S32, 5, 4, 0}, {BTRUE, 0, 5, 0, 5}, {RET, 0, 4}};
    struct timespec from, to;
    clock_gettime(CLOCK_MONOTONIC, &from);
    int status = run(text);
    clock_gettime(CLOCK_MONOTONIC, &to);
    printf("plain C: status %d, %llu instructions in %lld ms\n", status, (unsigned long long)done,
           (long long)((to.tv_sec - from.tv_sec) * 1000 + (to.tv_nsec - from.tv_nsec) / 1000000));
    return argc > 9;
}
CODE
gcc -O2 -o "$room/plain" "$room/plain.c"

(cd "$room/repo/crates/vm_speed" && rt run > "$room/log" 2>&1) || true
program=$(find "$room/repo/crates/vm_speed/out" -maxdepth 1 -type f -name vm_speed | head -1)
[ -n "$program" ] || { tail -60 "$room/log"; exit 1; }
for _ in 1 2 3; do
    "$program" "$room/loop.vm"
    "$room/plain" "$rounds"
done
for text in calls call; do
    python3 - "$program" "$room/$text.vm" <<'CODE'
import os, subprocess, sys
child = subprocess.Popen(sys.argv[1:])
_, status, usage = os.wait4(child.pid, 0)
print(f"most memory of {os.path.basename(sys.argv[2])}: {usage.ru_maxrss} KiB")
CODE
done
