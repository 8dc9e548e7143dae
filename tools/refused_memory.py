"""Refuses the allocations of programs one after the other, and says how they answer.

usage: tools/refused_memory.py

A program over `alpha_text` and `alpha_asm`, made and proved in a folder of its own, reads an assembly text with a line
of each form, prints it and assembles it. A call that finds no memory says so and is made once more, so at its end the
program has to say what it says with memory. It is run once for each of its allocations, of which that one is refused.

Where `./msc` has built the compiler, each command is run on the files of `examples/` likewise, and `build`, `run`, `vm`
and `print` of what is live, on a text with forty locals: it has to end with status 71, to say `msc: memory`, and to
write nothing to the standard output.

It needs the toolchain and a C compiler. The gate does not run it.
"""
import os
import shutil
import subprocess
import sys
import tempfile

TOP = os.path.dirname(os.path.dirname(os.path.abspath(__file__)))
CRATES = ["bk_memory", "alpha_isa", "alpha_items", "alpha_asm", "alpha_lines", "alpha_text"]

# the allocations that the programs of the toolchain make, of which the one whose number is in REFUSED fails; at the end
# their number is put into the file COUNTED
SHIM = r"""
#define _GNU_SOURCE
#include <dlfcn.h>
#include <errno.h>
#include <fcntl.h>
#include <stdlib.h>
#include <unistd.h>

static long made;

static int is_refused(void) {
    const char *refused = getenv("REFUSED");
    made++;
    return refused != NULL && made == atol(refused);
}

__attribute__((destructor)) static void count(void) {
    const char *path = getenv("COUNTED");
    int file = path == NULL ? -1 : open(path, O_WRONLY | O_CREAT | O_TRUNC, 0600);
    if (file >= 0 && write(file, &made, sizeof made) == sizeof made) close(file);
}

void *malloc(size_t size) {
    static void *(*next)(size_t);
    if (next == NULL) next = dlsym(RTLD_NEXT, "malloc");
    if (!is_refused()) return next(size);
    errno = ENOMEM;
    return NULL;
}

void *realloc(void *old, size_t size) {
    static void *(*next)(void *, size_t);
    if (next == NULL) next = dlsym(RTLD_NEXT, "realloc");
    if (!is_refused()) return next(old, size);
    errno = ENOMEM;
    return NULL;
}
"""

PROGRAM = r"""//! Reads an assembly text, prints it and assembles it. A call that finds no memory is made once more.
#![tactic(auto)]

use alpha_asm::assemble::{AsmFault, assemble};
use alpha_isa::image::Image;
use alpha_items::asm::Asm;
use alpha_text::fault::TextFault;
use alpha_text::print::print_asm;
use alpha_text::read::read_asm;
use anyhow::Result;

/// A line of each form.
const TEXT: &[u8] = b".msa 1\n.ent main\nL0:\nL1:\nldq $1, -8($30)\naddq $1, $2, $3\nsextb $2, $3\njsr $26, ($27)\ncall_pal 131\nbne $1, L4294967295\nbr $31, L1\n.text $1, L0\n.addr $1, 40\nL4294967295:\n.data 40\n.hex 000102030405060708090a0b0c0d0e0f101112131415161718191a1b1c1d1e1f\n.hex ff7f80010a0d0920\n.fix 0 40\n.fix 8 0\n.fix 32 39\n";

fn read(rt: &HostRuntime) -> Result<Option<Asm>> {
    for _turn in 0..2 {
        match read_asm(rt.alloc(), TEXT) {
            Ok(asm) => return Ok(Some(asm)),
            Err(TextFault::NoMemory) => eprintln!(rt; "read_asm")?,
            Err(fault) => println!(rt; "read_asm: {fault}")?,
        }
    }
    Ok(None)
}

fn print(rt: &HostRuntime, asm: &Asm) -> Result<Option<Vec<u8>>> {
    for _turn in 0..2 {
        match print_asm(rt.alloc(), asm) {
            Ok(text) => return Ok(Some(text)),
            Err(_) => eprintln!(rt; "print_asm")?,
        }
    }
    Ok(None)
}

fn image(rt: &HostRuntime, asm: &Asm) -> Result<Option<Image>> {
    for _turn in 0..2 {
        match assemble(rt.alloc(), asm) {
            Ok(image) => return Ok(Some(image)),
            Err(AsmFault::NoMemory) => eprintln!(rt; "assemble")?,
            Err(AsmFault::CodeTooLong { words }) => println!(rt; "assemble: {words} words")?,
        }
    }
    Ok(None)
}

fn main(rt: HostRuntime) -> Result<()> {
    let Some(asm) = read(&rt)? else {
        return Ok(());
    };
    let Some(text) = print(&rt, &asm)? else {
        return Ok(());
    };
    let Some(image) = image(&rt, &asm)? else {
        return Ok(());
    };
    let (words, bytes, is_same) = (image.words.len(), image.bytes.len(), text.as_slice() == TEXT);
    println!(rt; "{words} words, {bytes} bytes, printed as read: {is_same}")?;
    Ok(())
}
"""


def made_program(folder):
    """Proves and builds the program in a folder, with the crates that it stands on."""
    lines = [f"refused_memory: anyhow {' '.join(CRATES)}\n"]
    with open(f"{TOP}/crates.txt") as listed:
        lines += [line for line in listed if line.split(":")[0] in CRATES]
    for crate in CRATES:
        shutil.copytree(f"{TOP}/crates/{crate}", f"{folder}/crates/{crate}", ignore=shutil.ignore_patterns("out", "must-fail"))
    with open(f"{folder}/crates.txt", "w") as file:
        file.writelines(lines)
    crate = f"{folder}/crates/refused_memory"
    os.makedirs(f"{crate}/src")
    with open(f"{crate}/src/main.rt", "w") as file:
        file.write(PROGRAM)
    subprocess.run(["rt", "fmt"], cwd=crate, capture_output=True)
    # The gate's command takes what it proved of these crates before.
    shutil.copy(f"{TOP}/HANDLES", folder)
    made = subprocess.run(["rt", "ci"], cwd=folder, capture_output=True, text=True)
    if not os.path.exists(f"{crate}/out/refused_memory"):
        sys.exit(made.stdout + made.stderr)
    return f"{crate}/out/refused_memory"


def run(words, shim, refused, **more):
    """How a program ends where one of its allocations is refused, or none where that is 0."""
    known = dict(os.environ, LD_PRELOAD=shim, REFUSED=str(refused), **more)
    end = subprocess.run(words, env=known, stdin=subprocess.DEVNULL, capture_output=True)
    return end.returncode, end.stdout, end.stderr


def refused_in_turn(words, shim, is_right):
    """The answers of a program, of which each allocation is refused once, that are not the one that it gives with
    memory. It does without some, as the room in which its output is held. It stops where an answer is wrong."""
    counted = f"{os.path.dirname(shim)}/counted"
    whole = run(words, shim, 0, COUNTED=counted)
    with open(counted, "rb") as file:
        made = int.from_bytes(file.read(), sys.byteorder)
    answers = []
    for refused in range(1, made + 1):
        answer = run(words, shim, refused)
        if answer != whole:
            if not is_right(answer, whole):
                sys.exit(f"{' '.join(words)}: allocation {refused} of {made} refused: {answer}")
            answers.append(answer)
    said = " ".join(os.path.basename(word) for word in words)
    print(f"{said}: {made} allocations, {len(answers)} of them wanted")
    return answers


def check_library(folder, shim):
    def is_right(answer, whole):
        calls = [b"read_asm\n", b"print_asm\n", b"assemble\n"]
        return answer[:2] == whole[:2] and answer[2] in calls

    answers = refused_in_turn([made_program(folder)], shim, is_right)
    for call in ["read_asm", "print_asm", "assemble"]:
        count = sum(answer[2].decode() == call + "\n" for answer in answers)
        print(f"{call}: {count} allocations")


def forty_locals():
    """A C text whose `main` has forty values that are live at once, over calls."""
    names = [f"v{k}" for k in range(40)]
    lines = ["int f(int x){return x+1;}", "int main(void){", *(f"int {name};" for name in names), "int i;"]
    lines += [f"{name}={k};" for k, name in enumerate(names)]
    lines += ["for(i=0;i<3;i++){", *(f"{name}=f({name});" for name in names), "}", f"return {'+'.join(names)};}}"]
    return "\n".join(lines) + "\n"


def check_compiler(folder, shim):
    program = f"{TOP}/crates/msc/out/msc"
    if not os.path.exists(program):
        print("the compiler is not built")
        return
    image = f"{folder}/hi.image"
    source, text = f"{TOP}/examples/hi.c", f"{TOP}/examples/hi.s"
    locals_source = f"{folder}/forty_locals.c"
    with open(locals_source, "w") as file:
        file.write(forty_locals())
    with open(image, "wb") as file:
        file.write(run([program, "build", source], shim, 0)[1])
    calls = [["build", source], ["run", source], ["print", source, "--pass", "tree"], ["assemble", text],
             ["exec", image], ["migrate", image], ["build", locals_source], ["run", locals_source],
             ["vm", locals_source], ["print", locals_source, "--pass", "live"]]
    for words in calls:
        refused_in_turn([program, *words], shim, lambda a, _: a == (71, b"", b"msc: memory\n"))


def main():
    with tempfile.TemporaryDirectory(prefix="refused_memory.") as folder:
        shim = f"{folder}/refuse.so"
        compiler = ["cc", "-shared", "-fPIC", "-x", "c", "-", "-o", shim, "-ldl"]
        subprocess.run(compiler, input=SHIM.encode(), check=True)
        check_library(folder, shim)
        check_compiler(folder, shim)


if __name__ == "__main__":
    main()
