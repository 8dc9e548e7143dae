#!/bin/sh
# Measures how long selection (alpha_select) takes for programs of the greatest size, 2^24, and how much memory: those of
# sums, of constants that take five instructions, of short blocks with branches, of calls with nine arguments, and of
# copies. Beside each stands a program of a fourth of the size, so that it shows whether the time grows with the size
# alone, and one of 2^21: the copies of structs of bytes that a C text within the limit of the weight asks for count that
# much together, 16 for each unit of weight.
#
# Run by hand at the top of the repository: sh bench/selection.sh. It works on a copy in a folder of its own under /tmp,
# where the crates are proved.
set -eu

top=$(pwd)
room=$(mktemp -d /tmp/selection_speed.XXXXXX)
trap 'rm -rf "$room"' EXIT
own='alpha_select anyhow bk_containers mem_objects pass_checks pass_core suifvm_checks suifvm_ir temp_ir'

mkdir -p "$room/repo/crates/selection_speed/src"
cp "$top/HANDLES" "$room/repo/"
# all that the program stands on, in the order of crates.txt
python3 - "$top/crates.txt" $own > "$room/names" <<'CODE'
import sys
uses = {}
for line in open(sys.argv[1]):
    name, _, rest = line.strip().partition(':')
    if name and not name.startswith('#'):
        uses[name] = rest.split()
wanted, left = set(), sys.argv[2:]
while left:
    name = left.pop()
    if name in uses and name not in wanted:
        wanted.add(name)
        left += uses[name]
print('\n'.join(name for name in uses if name in wanted))
CODE
while read -r crate; do
    cp -r "$top/crates/$crate" "$room/repo/crates/"
    grep -E "^$crate:" "$top/crates.txt" >> "$room/repo/crates.txt"
done < "$room/names"
echo "selection_speed: $own" >> "$room/repo/crates.txt"

cat > "$room/repo/crates/selection_speed/src/main.rt" <<'CODE'
//! Selects a program of a kind and a size, and says how long it took.
#![tactic(auto)]

use alpha_select::select;
use anyhow::{Context, Result, ensure};
use bk_containers::{Name, Seq};
use pass_checks::{Parts, function_of};
use pass_core::function::Func;
use std::alloc::Global;
use std::env;
use std::time::Instant;
use suifvm_checks::program::program_of;
use suifvm_checks::size::is_small;
use suifvm_ir::insn::{VmBinaryOp, VmBranchOp, VmCallee, VmInsn};
use suifvm_ir::operands::ArgumentRegisters;
use suifvm_ir::program::VmProgram;
use suifvm_ir::types::{Alignment, VmType};

/// The instruction of a kind.
fn insn_of(kind: &str) -> Result<VmInsn> {
    match kind {
        "sums" => Ok(VmInsn::Binary {
            op: VmBinaryOp::Add,
            ty: VmType::S64,
            destination: 2,
            left: 0,
            right: 1,
        }),
        "constants" => Ok(VmInsn::LoadConstant {
            ty: VmType::U64,
            destination: 2,
            word: 0x1234_5678_9abc_def0,
        }),
        "copies" => Ok(VmInsn::Copy {
            to: 0,
            from: 1,
            size: 64,
            align: Alignment::Eight,
        }),
        _ => Ok(VmInsn::Branch {
            op: VmBranchOp::IfTrue,
            ty: VmType::S32,
            source: 0,
            block: 1,
        }),
    }
}

/// A call of the first function, with nine arguments.
fn call(alloc: Global) -> Result<VmInsn> {
    let mut arguments = Vec::new(alloc);
    for _ in 0..9 {
        arguments.push(1_u32)?;
    }
    Ok(VmInsn::Call {
        destination: Some(2),
        callee: VmCallee::Function(0),
        arguments: ArgumentRegisters::from_slice(alloc, arguments.as_slice())?,
    })
}
/// How much one instruction of a kind counts, with a block where it has one of its own.
fn weight_of(kind: &str) -> u32 {
    match kind {
        "copies" => 129,
        "calls" => 10,
        "branches" => 2,
        _ => 1,
    }
}

/// The function that is called: it takes nine parameters.
fn callee(alloc: Global) -> Result<Func<VmInsn>> {
    let mut block = Seq::new(alloc);
    block.push(VmInsn::Return { value: None })?;
    let mut blocks = Vec::new(alloc);
    blocks.push(block)?;
    let parts = Parts {
        name: Name::from_slice(alloc, b"nine")?,
        params: 9,
        registers: 9,
        objects: Seq::new(alloc),
        blocks,
    };
    function_of(alloc, parts)?.context("the function is not lawful")
}

/// So many instructions of a kind.
fn straight(alloc: Global, kind: &str, count: u32) -> Result<Vec<Seq<VmInsn>>> {
    let mut block = Seq::new(alloc);
    for _ in 0..count {
        let insn = if kind == "calls" { call(alloc)? } else { insn_of(kind)? };
        block.push(insn)?;
    }
    block.push(VmInsn::Return { value: None })?;
    let mut blocks = Vec::new(alloc);
    blocks.push(block)?;
    Ok(blocks)
}

/// So many blocks with a branch to the next one each.
fn branches(alloc: Global, count: u32) -> Result<Vec<Seq<VmInsn>>> {
    let mut blocks = Vec::new(alloc);
    for number in 0..count {
        let mut block = Seq::new(alloc);
        block.push(VmInsn::Branch {
            op: VmBranchOp::IfTrue,
            ty: VmType::S32,
            source: 0,
            block: number.wrapping_add(1),
        })?;
        blocks.push(block)?;
    }
    let mut last = Seq::new(alloc);
    last.push(VmInsn::Return { value: None })?;
    blocks.push(last)?;
    Ok(blocks)
}

/// A program of a kind and about a size.
fn program_with(alloc: Global, kind: &str, size: u32) -> Result<VmProgram> {
    let count = size.saturating_sub(32) / weight_of(kind).max(1);
    let blocks = match kind {
        "branches" => branches(alloc, count)?,
        _ => straight(alloc, kind, count)?,
    };
    let parts = Parts {
        name: Name::from_slice(alloc, b"main")?,
        params: 0,
        registers: 3,
        objects: Seq::new(alloc),
        blocks,
    };
    let main = function_of(alloc, parts)?.context("main is not lawful")?;
    let mut functions = Seq::new(alloc);
    functions.push(callee(alloc)?)?;
    functions.push(main)?;
    program_of(functions, Seq::new(alloc)).context("the program is not lawful")
}

fn main(rt: HostRuntime) -> Result<()> {
    let alloc = rt.alloc();
    let words: Vec<String> = env::args(&rt)?.collect(alloc)?;
    let [_, kind, power, task] = words.as_slice() else {
        return Ok(());
    };
    let size = match power.as_str() {
        "24" => 1_u32 << 24,
        "22" => 1_u32 << 22,
        _ => 1_u32 << 21,
    };
    let program = program_with(alloc, kind.as_str(), size)?;
    ensure!(is_small(&program), "the program is too large");
    if task.as_str() != "select" {
        return Ok(());
    }
    let start = Instant::now(&rt)?;
    let selected = select(alloc, &program)?;
    let took = start.elapsed(&rt)?;
    let mut count = 0_u64;
    for function in selected.functions.as_slice() {
        for block in function.blocks.as_slice() {
            count = count.wrapping_add(block.insns.iter().count() as u64);
        }
    }
    println!(rt; "{kind} of size 2^{power}: {count} instructions in {} ms", took.as_millis())?;
    Ok(())
}
CODE

(cd "$room/repo/crates/selection_speed" && rt run > "$room/log" 2>&1) || true
program=$(find "$room/repo/crates/selection_speed/out" -maxdepth 1 -type f -name selection_speed | head -1)
[ -n "$program" ] || { tail -60 "$room/log"; exit 1; }
python3 - "$program" <<'CODE'
import os, subprocess, sys


def peak(words):
    child = subprocess.Popen([sys.argv[1]] + words)
    _, status, usage = os.wait4(child.pid, 0)
    if status:
        sys.exit(f"{words}: status {status}")
    return usage.ru_maxrss // 1024


for kind in ["sums", "constants", "branches", "calls", "copies"]:
    for power in ["21", "22", "24"]:
        given, whole = peak([kind, power, "make"]), peak([kind, power, "select"])
        print(f"    {given} MiB for the program that is given, {whole} MiB in all")
CODE
