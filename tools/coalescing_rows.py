#!/usr/bin/env python3
"""coalescing_rows.py    writes the rows of crates/back_rows/data/coalesced_runs.rows, and prints their number

The rows have programs of a generator, straight code and forward branches over a few temporaries with many copies, and
one whose blocks all lead to its last one. What is due is how the program ends, which is computed here.
"""
import random
from pathlib import Path

TOP = Path(__file__).resolve().parent.parent
WORD = 1 << 64
OPERATIONS = ["addq", "subq", "and", "bis", "xor", "cmplt", "cmpeq", "addq/v", "subq/v"]
HEAD = """# Programs over temporaries of a generator, and how they run before and behind the pass that lets copies and dead
# instructions go; written with their endings by tools/coalescing_rows.py.
#
# A program is written as in `temp_runs.rows`. What is due are two lines, of the run before the pass and of that behind
# it.
"""


def signed(word):
    return word - WORD if word >> 63 else word


def operate(name, a, b):
    """The word of an operation, or None where it traps."""
    if name[:4] in ("addq", "subq"):
        exact = signed(a) + signed(b) if name[0] == "a" else signed(a) - signed(b)
        if name.endswith("/v") and not -(1 << 63) <= exact < 1 << 63:
            return None
        return exact % WORD
    return {
        "and": a & b,
        "bis": a | b,
        "xor": a ^ b,
        "cmplt": int(signed(a) < signed(b)),
        "cmpeq": int(a == b),
        "sll": a << (b & 63) & WORD - 1,
    }[name]


def straight_code(random, temps, count):
    for _ in range(count):
        kind = random.random()
        d, a, b = (random.randrange(temps) for _ in range(3))
        if kind < 0.5:
            yield ("copy", d, a)
        elif kind < 0.6:
            yield ("lda", d, random.randrange(-300, 300))
        elif kind < 0.64:
            yield ("sll", d, a, str(random.randrange(64)))
        elif kind < 0.66:
            yield ("mrk",)
        else:
            right = f"t{b}" if random.random() < 0.7 else str(random.randrange(256))
            yield (random.choice(OPERATIONS), d, a, right)


def generated(seed):
    """The blocks of a program, each a list of instructions."""
    chance = random.Random(seed)
    temps, count = chance.randrange(3, 9), chance.randrange(1, 7)
    blocks = [[("lda", t, chance.randrange(-40, 40)) for t in range(temps)]]
    blocks[0].append(("sll", 0, 0, str(chance.choice([1, 50, 58, 62]))))
    for number in range(count):
        block = blocks[0] if number == 0 else []
        block.extend(straight_code(chance, temps, chance.randrange(0, 14)))
        if number + 1 < count:
            test = chance.choice(["beq", "bne", "blt", "bge", None])
            if test:
                block.append((test, chance.randrange(temps), chance.randrange(number + 1, count)))
        if number > 0:
            blocks.append(block)
    blocks[-1].append(("return", chance.randrange(temps)))
    return temps, blocks


def meeting(edges):
    """A program at whose last block so many edges of branches meet."""
    blocks = [[("lda", 0, 20), ("lda", 1, 0)]]
    for number in range(1, edges + 1):
        block = [("subq", 2, 0, "1"), ("copy", 0, 2), ("addq", 3, 1, str(number)), ("copy", 1, 3)]
        blocks.append(block + [("beq", 0, edges + 1)])
    blocks.append([("return", 1)])
    return 4, blocks


def text(insn):
    name = insn[0]
    if name == "copy":
        return f"bis $31, t{insn[2]}, t{insn[1]}"
    if name == "lda":
        return f"lda t{insn[1]}, {insn[2]}($31)"
    if name == "mrk":
        return "mrk"
    if name in ("beq", "bne", "blt", "bge"):
        return f"{name} t{insn[1]}, B{insn[2]}"
    return f"{name} t{insn[2]}, {insn[3]}, t{insn[1]}"


def ending(temps, blocks):
    held, block, at = {}, 0, 0
    while True:
        if at == len(blocks[block]):
            block, at = block + 1, 0
            continue
        name, *rest = blocks[block][at]
        at += 1
        if name == "copy":
            held[rest[0]] = held[rest[1]]
        elif name == "lda":
            held[rest[0]] = rest[1] % WORD
        elif name == "return":
            return f"Done({held[rest[0]] % 256})"
        elif name in ("beq", "bne", "blt", "bge"):
            value = signed(held[rest[0]])
            if {"beq": value == 0, "bne": value != 0, "blt": value < 0, "bge": value >= 0}[name]:
                block, at = rest[1], 0
        elif name != "mrk":
            right = rest[2]
            word = operate(name, held[rest[1]], held[int(right[1:])] if right[0] == "t" else int(right))
            if word is None:
                return "Trap(3)"
            held[rest[0]] = word


def row(said, temps, blocks):
    lines, number = [f"# {said}", "func main", "params 0", f"temps {temps}"], 0
    for block, insns in enumerate(blocks):
        lines.append(f"B{block}:")
        for insn in insns:
            shown = [f"bis $31, t{insn[1]}, $0", "ret $0"] if insn[0] == "return" else [text(insn)]
            for line in shown:
                lines.append(f"{number} {line}")
                number += 1
    due = ending(temps, blocks)
    return "\n".join(lines + ["turns 1000 =>", f"  before {due}", f"  after {due}", ""])


def main():
    rows = [row("30 edges of branches meet at a block", *meeting(30))]
    rows += [row(f"seed {seed}", *generated(seed)) for seed in range(300)]
    (TOP / "crates/back_rows/data/coalesced_runs.rows").write_text(HEAD + "\n" + "\n".join(rows))
    print(len(rows))


main()
