#!/usr/bin/env python3
"""Writes the rows of graphs of functions, crates/back_rows/data/graphs.rows, from a model of its own.

A function is a list of blocks, each with its last instruction: `jmp N`, `btrue N`, `ret` or `go` for a block that goes on
without one, and `mrk` in front where a jump goes back to it.
"""
import os

FILE = os.path.join(os.path.dirname(os.path.abspath(__file__)), "..", "crates", "back_rows", "data", "graphs.rows")
HEAD = """\
# The edges of a function, those that are left without the blocks to which no path leads, and those where each edge
# leads by way of a block of its own that led from a block with two followers to one that two edges lead to; written by
# tools/graph_rows.py.
#
# A program is written as in `vm_runs.rows`. What is due is for each function, as it is given, `reached` and `split`, a
# line for each block with those that may follow it, one for each with those that it may follow, once for each edge,
# and the order of the blocks.
"""
CASES = [
    ("a jump to a return, over a block to which no path leads", "jmp 2; jmp 2; ret"),
    ("a branch over a block", "btrue 2; go; ret"),
    ("one block", "ret"),
    ("a straight line", "go; go; ret"),
    ("a loop whose test is in front", "go; mrk btrue 3; jmp 1; ret"),
    ("a loop whose test is behind: both edges of the test are split", "go; mrk go; btrue 1; ret"),
    ("a loop of one block", "go; mrk btrue 1; ret"),
    ("a branch whose two ways are one block", "btrue 1; ret"),
    ("two ways that meet: no edge has to be split", "btrue 2; jmp 3; go; ret"),
    ("a chain of tests, as of a switch", "btrue 4; btrue 5; btrue 6; jmp 7; jmp 7; jmp 7; go; ret"),
    ("a chain of tests that go to one block", "btrue 3; btrue 3; btrue 3; ret"),
    ("a loop with a way out in its middle", "go; mrk btrue 4; btrue 4; jmp 1; ret"),
    ("a loop in a loop", "go; mrk btrue 5; mrk btrue 4; jmp 2; jmp 1; ret"),
    ("a loop to which no path leads", "jmp 3; mrk btrue 1; jmp 1; ret"),
    ("a join that is none when its other edge is gone", "btrue 3; ret; jmp 3; ret"),
    ("a loop that does not end, and what stands behind it", "go; mrk jmp 1; ret"),
]


def parsed(text):
    return [tuple(part.split()[-2:]) if part.split()[-1].isdigit() else (part.split()[-1],) for part in text.split("; ")]


def followers(blocks, number):
    word, *to = blocks[number]
    return [int(t) for t in to] + ([number + 1] if word in ("btrue", "go") else [])


def reached(blocks):
    """By paths from block 0, tried one after the other."""
    found, waiting = set(), [0]
    while waiting:
        number = waiting.pop()
        if number not in found:
            found.add(number)
            waiting += followers(blocks, number)
    kept = sorted(found)
    return [(word, *(str(kept.index(int(t))) for t in to)) for word, *to in (blocks[k] for k in kept)]


def split(blocks):
    """The blocks with names for numbers first, and numbers given when all stand."""
    edges = [to for number in range(len(blocks)) for to in followers(blocks, number)]
    named = []
    for number, (word, *to) in enumerate(blocks):
        ways = followers(blocks, number)
        if len(ways) > 1 and any(edges.count(way) > 1 for way in ways):
            named.append((number, word, ("to", number)))
            named.append((("on", number), "jmp", number + 1))
            named.append((("to", number), "jmp", int(to[0])))
        else:
            named.append((number, word, *(int(t) for t in to)))
    names = [name for name, *_ in named]
    return [(word, *(str(names.index(t)) for t in to)) for _, word, *to in named]


def shown(title, blocks):
    lists = [followers(blocks, number) for number in range(len(blocks))]
    lines = [title] if title else []
    lines += [f"succ {k}:" + "".join(f" {to}" for to in ways) for k, ways in enumerate(lists)]
    for k in range(len(blocks)):
        lines.append(f"pred {k}:" + "".join(f" {other}" for other, ways in enumerate(lists) for to in ways if to == k))
    return lines + ["order" + "".join(f" {k}" for k in range(len(blocks)))]


def given(text):
    lines, number = ["func main", "params 0", "registers 1"], 0
    for k, part in enumerate(text.split("; ")):
        lines.append(f"B{k}:")
        words = part.split()
        insns = ["mrk"] if words[0] == "mrk" else []
        last = words[-2:] if words[-1].isdigit() else words[-1:]
        insns += {"jmp": lambda: [f"jmp B{last[1]}"], "btrue": lambda: [f"btrue.s32 v0, B{last[1]}"],
                  "ret": lambda: ["ret"], "go": lambda: [] if insns else ["nop"]}[last[0]]()
        for insn in insns:
            lines.append(f"{number} {insn}")
            number += 1
    return lines


def row(said, text):
    blocks = parsed(text)
    part = reached(blocks)
    due = ["func main", *shown("", blocks), *shown("reached", part), *shown("split", split(part))]
    return "\n".join([f"# {said}", *given(text)]) + " =>\n" + "".join(f"  {line}\n" for line in due)


if __name__ == "__main__":
    with open(FILE, "w") as file:
        file.write(HEAD + "\n" + "\n".join(row(*case) for case in CASES))
