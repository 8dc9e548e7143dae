#!/usr/bin/env python3
"""Rows of what flows between blocks, for crates/back_rows/data/flows.rows.

usage: flow_rows.py            prints rows of random graphs
       flow_rows.py --check    says which rows of the file differ from the model, those that were worked by hand too

The model goes by paths: a number flows out of a block where a path along the blocks next to it leads from there to one
that makes the number, and no block on the way stops it. Where such a path leads twice to one block, it does without
what lies between, so paths that name each block once at most are all that is tried. Nothing is gathered in rounds.
"""
import os
import random
import re
import sys

FILE = os.path.join(os.path.dirname(os.path.abspath(__file__)), "..", "crates", "back_rows", "data", "flows.rows")


def flows_out(block, number, nexts, makes, stops, passed=()):
    """Whether a path that has passed these blocks leads on from this one to a block that makes the number."""
    if block in passed or block not in nexts:
        return False
    if number in makes[block]:
        return True
    if number in stops[block]:
        return False
    return any(flows_out(to, number, nexts, makes, stops, passed + (block,)) for to in nexts[block])


def due(bound, is_backward, graph, makes, stops):
    """The lines that are due: what flows at the top and at the bottom of each block."""
    before = {block: [other for other in graph if block in graph[other]] for block in graph}
    nexts = graph if is_backward else before

    def out(block):
        return {k for k in range(bound) if flows_out(block, k, nexts, makes, stops)}

    def members(numbers):
        return "".join(f" {k}" for k in sorted(numbers))

    lines = []
    for block in graph:
        outs = members(out(block))
        ins = members(set().union(*(out(to) for to in nexts[block] if to in graph)))
        top, bottom = (outs, ins) if is_backward else (ins, outs)
        lines.append(f"B{block} top{top} bottom{bottom}")
    return lines


def given(bound, is_backward, graph, makes, stops):
    lines = [f"bound {bound}"]
    for block, to in graph.items():
        parts = [("to", to), ("makes", makes[block]), ("stops", stops[block])]
        shown = ", ".join(" ".join([word, *map(str, numbers)]) for word, numbers in parts if numbers)
        lines.append(f"B{block} {shown}".rstrip())
    return lines + ["backward" if is_backward else "forward"]


def read(lines):
    """What the lines of a row give."""
    bound, is_backward, graph, makes, stops = 0, False, {}, {}, {}
    for line in lines:
        word, _, rest = line.partition(" ")
        if word == "bound":
            bound = int(rest)
        elif word in ("forward", "backward"):
            is_backward = word == "backward"
        else:
            block = int(re.fullmatch("B([0-9]+)", word).group(1))
            parts = dict(part.split(" ", 1) for part in rest.split(", ") if part)
            lists = [[int(k) for k in parts.pop(name, "").split()] for name in ("to", "makes", "stops")]
            assert not parts and block == len(graph), line
            assert all(k < bound for k in lists[1] + lists[2]), line
            graph[block], makes[block], stops[block] = lists
    return bound, is_backward, graph, makes, stops


def some(draw, count, chance):
    return [k for k in range(count) if draw.random() < chance]


def random_row(draw, is_backward):
    """A graph of up to seven blocks, of which each goes on to three at most."""
    count = draw.randint(2, 7)
    bound = draw.choice([1, 2, 3, 4, 5, 66])
    graph = {block: [draw.randrange(count) for _ in range(draw.choice([0, 1, 1, 2, 2, 3]))] for block in range(count)}
    rare = 1 if bound < 10 else 6
    makes = {block: some(draw, bound, 0.25 / rare) for block in graph}
    stops = {block: some(draw, bound, 0.4 / rare) for block in graph}
    return bound, is_backward, graph, makes, stops


def print_rows():
    draw = random.Random(1)
    for number in range(30):
        row = random_row(draw, number % 2 == 1)
        print("\n".join(given(*row)) + " =>")
        print("".join(f"  {line}\n" for line in due(*row)))


def rows_of(text):
    """What each row gives, and what is due of it."""
    rows, lines = [], []
    for line in text.splitlines():
        if line.startswith("#"):
            continue
        if line.startswith("  "):
            rows[-1][1].append(line[2:])
        elif line.endswith(" =>"):
            rows.append((lines + [line.removesuffix(" =>")], []))
            lines = []
        elif line:
            lines.append(line)
    return rows


def check():
    with open(FILE) as file:
        rows = rows_of(file.read())
    wrong = [(lines, said, due(*read(lines))) for lines, said in rows if due(*read(lines)) != said]
    for lines, said, found in wrong:
        print("\n".join(["differs:", *lines, "  due", *said, "  found", *found]))
    print(f"{len(rows)} rows, {len(wrong)} differ")
    return 1 if wrong else 0


if __name__ == "__main__":
    if sys.argv[1:] == ["--check"]:
        sys.exit(check())
    if sys.argv[1:]:
        sys.exit(__doc__)
    print_rows()
