#!/usr/bin/env python3
"""Says how many paths lead down from each crate of crates.txt.

The toolchain follows every path from a crate to those below it, again and again, so a crate costs 1 and the sum of what the
crates on its line cost. A crate that stands high keeps its line short: it lists the highest of the crates that it needs, and
names what it cites of lower ones through it, by `pub use` lines in that crate's specs/Lib.antt and proofs/Lib.antt.

usage: tools/crate_paths.py      (the dearest twenty, and the sum)
"""
import os

top = os.path.dirname(os.path.dirname(os.path.abspath(__file__)))
below = {}
with open(f"{top}/crates.txt") as file:
    for line in file:
        line = line.split("#")[0].strip()
        if line:
            name, names = line.split(":")
            below[name.split()[0]] = names.split()

paths = {}


def count(crate):
    if crate not in paths:
        paths[crate] = 1 + sum(count(lower) for lower in below[crate] if lower in below)
    return paths[crate]


for crate in below:
    count(crate)
for crate, number in sorted(paths.items(), key=lambda it: -it[1])[:20]:
    print(f"{number:10} {crate}")
print(f"{sum(paths.values()):10} in all")
