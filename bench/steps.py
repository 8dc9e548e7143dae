#!/usr/bin/env python3
"""The steps that images take, beside the code of the cross compiler for the same processor.

usage: bench/steps.py [MSC..]

For each program of examples/ that reads nothing or has its input beside it, and of bench/programs/: the steps that the
image takes which each MSC builds (crates/msc/out/msc where none is named), by its default allocator and with
`--alloc plain`, and the instructions that the code of `alpha-linux-gnu-gcc` with -O0 and -O1 takes in its own functions,
as `qemu-alpha` tells them one by one, where both are installed. Each output has to be the one that `gcc` gives. Behind
the table stand the geometric means of each column over the first one.
"""
import glob
import math
import os
import re
import shutil
import subprocess
import sys
import tempfile

TOP = os.path.dirname(os.path.dirname(os.path.abspath(__file__)))
CROSS = "alpha-linux-gnu-gcc"
# the words by which an image is built, one column for each
ALLOCATORS = ((), ("--alloc", "plain"))


def runs(command, given, **more):
    with open(given) as source:
        return subprocess.run(command, stdin=source, capture_output=True, **more)


def expected(text, given, work):
    """What the host's compiler says of a program: its output and its status."""
    program = f"{work}/expected"
    subprocess.run(["gcc", "-std=gnu99", "-w", "-O1", "-fwrapv", "-o", program, text], check=True)
    ran = runs([program], given)
    return ran.stdout, ran.returncode


def steps(msc, words, text, given, due, work):
    """The least budget within which the image ends that is built with these words."""
    image = f"{work}/image"
    with open(image, "wb") as out:
        subprocess.run([msc, "build", text, *words], stdout=out, check=True)

    def ends(budget):
        ran = runs([msc, "exec", image, "--budget", str(budget)], given)
        if ran.returncode != 75 and (ran.stdout, ran.returncode) != due:
            sys.exit(f"{text}: {ran.stdout} with status {ran.returncode}, and not {due}")
        return ran.returncode != 75

    high = 1024
    while not ends(high):
        high *= 4
    low = high // 4
    while high - low > 1:
        middle = (low + high) // 2
        low, high = (low, middle) if ends(middle) else (middle, high)
    return high


def ranges(part, program):
    """Where the functions of an object file stand in a program."""
    def symbols(path):
        listed = subprocess.run(["alpha-linux-gnu-nm", "-S", "--defined-only", path], capture_output=True, text=True)
        return [line.split() for line in listed.stdout.splitlines() if len(line.split()) == 4]

    names = {name for _, _, kind, name in symbols(part) if kind in "Tt"}
    return [(int(at, 16), int(at, 16) + int(size, 16)) for at, size, _, name in symbols(program) if name in names]


def instructions(level, text, given, work):
    """The instructions that the functions of a C file take in a program of the cross compiler."""
    program, part, log = f"{work}/program", f"{work}/part.o", f"{work}/log"
    options = ["-std=gnu99", "-w", level, "-fwrapv", "-fno-builtin", "-fno-inline"]
    subprocess.run([CROSS, *options, "-no-pie", "-o", program, text], check=True)
    subprocess.run([CROSS, *options, "-c", "-o", part, text], check=True)
    within = ranges(part, program)
    runs(["qemu-alpha", "-L", "/usr/alpha-linux-gnu", "-singlestep", "-d", "nochain,exec", "-D", log, program], given)
    count = 0
    for line in open(log):
        found = re.search(r"\[[0-9a-f]+/([0-9a-f]+)/", line)
        if found:
            at = int(found[1], 16)
            count += any(low <= at < high for low, high in within)
    return count


def main():
    mscs = sys.argv[1:] or [f"{TOP}/crates/msc/out/msc"]
    levels = ["-O0", "-O1"] if shutil.which(CROSS) and shutil.which("qemu-alpha") else []
    texts = sorted(glob.glob(f"{TOP}/examples/*.c")) + sorted(glob.glob(f"{TOP}/bench/programs/*.c"))
    rows = []
    with tempfile.TemporaryDirectory() as work:
        for text in texts:
            beside = text[:-2] + ".in"
            if "getchar();" in open(text).read() and not os.path.exists(beside):
                continue
            given = beside if os.path.exists(beside) else "/dev/null"
            due = expected(text, given, work)
            row = [steps(msc, words, text, given, due, work) for msc in mscs for words in ALLOCATORS]
            row += [instructions(level, text, given, work) for level in levels]
            print(f"{os.path.basename(text)[:-2]:14}" + "".join(f"{count:12}" for count in row), flush=True)
            rows.append(row)
    means = [math.exp(sum(math.log(row[k] / row[0]) for row in rows) / len(rows)) for k in range(len(rows[0]))]
    print(f"{'mean':14}" + "".join(f"{mean:12.3f}" for mean in means))


if __name__ == "__main__":
    main()
