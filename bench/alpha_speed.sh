#!/bin/sh
# Measures the steps per second of the machine on a loop of 100 million steps, beside a plain C
# interpreter of the same words with a switch, compiled with gcc -O2. Run by hand at the top of the
# repository: sh bench/alpha_speed.sh. It works on a copy in a folder of its own under /tmp.
#
# The loop, after `ldah $1, 2($31)`, has 8 instructions: ldq, addq, stq, zapnot, addl, cmplt, subq, bne.
set -eu

top=$(pwd)
room=$(mktemp -d /tmp/alpha_speed.XXXXXX)
trap 'rm -rf "$room"' EXIT
steps=100000000

mkdir -p "$room/repo/crates/alpha_speed/src"
cp "$top/HANDLES" "$room/repo/"
for crate in bk_io alpha_isa alpha_run; do
    cp -r "$top/crates/$crate" "$room/repo/crates/"
done
grep -E '^(bk_io|alpha_isa|alpha_run):' "$top/crates.txt" > "$room/repo/crates.txt"
echo 'alpha_speed: alpha_run alpha_isa bk_io anyhow' >> "$room/repo/crates.txt"

cat > "$room/repo/crates/alpha_speed/src/main.rt" <<'CODE'
//! Runs a loop on the machine, and says how long it took.
#![tactic(auto)]

use alpha_isa::image::Image;
use alpha_run::machine::Machine;
use bk_io::empty::{EmptySource, NullSink};
use std::time::Instant;

fn main(rt: HostRuntime) -> Result<(), anyhow::Error> {
    let alloc = rt.alloc();
    let image = Image {
        words: [
            0x243f_0002,
            0xa441_0000,
            0x4040_3402,
            0xb441_0000,
            0x4841_f625,
            0x40a2_0006,
            0x40c2_09a7,
            0x4060_3523,
            0xf47f_fff8,
        ]
        .to_vec(alloc)?,
        bytes: [0; 64].to_vec(alloc)?,
        entry: 0,
    };
    let mut machine = Machine::load(alloc, &image, 4096)?;
    let start = Instant::now(&rt)?;
    let ending = machine.run(100_000_000, &mut EmptySource, &mut NullSink);
    let took = start.elapsed(&rt)?;
    let millis = took.as_millis();
    println!(rt; "rattle {ending:?} {} steps in {millis} ms", machine.steps())?;
    Ok(())
}
CODE

cat > "$room/plain.c" <<'CODE'
#include <inttypes.h>
#include <stdint.h>
#include <stdio.h>
#include <string.h>
#include <time.h>

static uint32_t text[] = {0x243f0002, 0xa4410000, 0x40403402, 0xb4410000, 0x4841f625,
                          0x40a20006, 0x40c209a7, 0x40603523, 0xf47ffff8};
static uint8_t data[64], stack[4096];
static uint64_t reg[32];

static uint8_t *place(uint64_t a, uint64_t n)
{
    if (a % n) return 0;
    if (a >= 0x20000 && a + n <= 0x20000 + sizeof data) return data + (a - 0x20000);
    if (a >= 0x30000 && a + n <= 0x30000 + sizeof stack) return stack + (a - 0x30000);
    return 0;
}

static uint64_t run(uint64_t budget)
{
    uint64_t pc = 0x10000, done = 0;
    for (; done < budget; done++) {
        uint64_t at = (pc - 0x10000) / 4;
        if (pc < 0x10000 || at >= sizeof text / 4) return done;
        uint32_t w = text[at];
        unsigned ra = w >> 21 & 31, rb = w >> 16 & 31, rc = w & 31;
        uint64_t a = reg[ra], b = w & 0x1000 ? w >> 13 & 255 : reg[rb], r = 0;
        uint64_t address = reg[rb] + (uint64_t)(int64_t)(int16_t)w;
        int64_t disp = (int64_t)((uint64_t)w << 43) >> 41;
        uint8_t *p;
        pc += 4;
        switch (w >> 26) {
        case 0x08: if (ra != 31) reg[ra] = address; continue;
        case 0x09: if (ra != 31) reg[ra] = reg[rb] + (uint64_t)(int64_t)(int16_t)w * 65536; continue;
        case 0x28: if (!(p = place(address, 4))) return done; { int32_t v; memcpy(&v, p, 4); if (ra != 31) reg[ra] = (int64_t)v; } continue;
        case 0x29: if (!(p = place(address, 8))) return done; { uint64_t v; memcpy(&v, p, 8); if (ra != 31) reg[ra] = v; } continue;
        case 0x2c: if (!(p = place(address, 4))) return done; { uint32_t v = a; memcpy(p, &v, 4); } continue;
        case 0x2d: if (!(p = place(address, 8))) return done; memcpy(p, &a, 8); continue;
        case 0x30: if (ra != 31) reg[ra] = pc; pc += disp; continue;
        case 0x39: if (a == 0) pc += disp; continue;
        case 0x3d: if (a != 0) pc += disp; continue;
        case 0x10:
            switch (w >> 5 & 127) {
            case 0x00: r = (int64_t)(int32_t)(a + b); break;
            case 0x09: r = (int64_t)(int32_t)(a - b); break;
            case 0x1d: r = a < b; break;
            case 0x20: r = a + b; break;
            case 0x22: r = 4 * a + b; break;
            case 0x29: r = a - b; break;
            case 0x2d: r = a == b; break;
            case 0x32: r = 8 * a + b; break;
            case 0x4d: r = (int64_t)a < (int64_t)b; break;
            default: return done;
            }
            break;
        case 0x11:
            switch (w >> 5 & 127) {
            case 0x00: r = a & b; break;
            case 0x20: r = a | b; break;
            case 0x40: r = a ^ b; break;
            default: return done;
            }
            break;
        case 0x12:
            switch (w >> 5 & 127) {
            case 0x31: for (int k = 0; k < 8; k++) if (b >> k & 1) r |= a & (uint64_t)255 << 8 * k; break;
            case 0x34: r = a >> (b & 63); break;
            case 0x39: r = a << (b & 63); break;
            case 0x3c: r = (int64_t)a >> (b & 63); break;
            default: return done;
            }
            break;
        default: return done;
        }
        if (rc != 31) reg[rc] = r;
    }
    return done;
}

int main(int argc, char **argv)
{
    uint64_t budget = 100000000;
    struct timespec from, to;
    clock_gettime(CLOCK_MONOTONIC, &from);
    uint64_t done = run(budget);
    clock_gettime(CLOCK_MONOTONIC, &to);
    uint64_t millis = (to.tv_sec - from.tv_sec) * 1000 + (to.tv_nsec - from.tv_nsec) / 1000000;
    printf("c      Budget %" PRIu64 " steps in %" PRIu64 " ms\n", done, millis);
    return 0;
}
CODE

gcc -O2 -w -o "$room/plain" "$room/plain.c"
cd "$room/repo/crates/alpha_speed"
rt run > "$room/run.log" 2>&1 || true
"$room/plain"
program=$(find "$room/repo/crates/alpha_speed/out" -maxdepth 1 -type f -name alpha_speed | head -1)
if [ -n "$program" ]; then "$program"; else tail -20 "$room/run.log"; fi
"$room/plain"
