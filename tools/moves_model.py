#!/usr/bin/env python3
"""Prints rows of moves that are to happen at once, for moves.rows.

What is due is computed from what such moves mean: each target holds what its source held, and they take one move for
each that is between different registers and one more for each cycle. In which order they are made is not said. Run at
the top of the repository:

    python3 tools/moves_model.py
"""
from itertools import permutations

HEAD = """\
# Moves that are to happen at once, whose rows were computed in Python (tools/moves_model.py).
#
#     $FROM to $TO, $FROM to $TO .. with $SCRATCH => N moves, $REGISTER has $BEFORE ..
#
# What is due is how many moves do the same one after the other, and each register but the scratch that then holds what
# another one held before.
"""
GIVEN = [*range(1, 9), *range(22, 26), 0, *range(16, 22), *range(9, 16)]


def cycles(sources):
    """How many cycles there are, where `sources` has for each target its source."""
    count, seen = 0, set()
    for start in sources:
        path, at = [], start
        while at in sources and at not in seen:
            seen.add(at)
            path.append(at)
            at = sources[at]
        if at in path and sources[at] != at:
            count += 1
    return count


def row(moves, scratch=28):
    sources = {to: source for source, to in moves}
    assert len(sources) == len(moves)
    assert all(scratch not in move for move in moves)
    count = sum(source != to for source, to in moves) + cycles(sources)
    parts = [f"{count} moves"]
    parts += [f"${to} has ${source}" for to, source in sorted(sources.items()) if source != to]
    given = ", ".join(f"${source} to ${to}" for source, to in moves)
    return f"{given} with ${scratch} => {', '.join(parts)}"


def cycle(registers):
    """Each register goes to the next one, and the last to the first."""
    return list(zip(registers, registers[1:] + registers[:1]))


def chain(registers):
    return list(zip(registers, registers[1:]))


def kinds():
    yield "one move, and one that stays", [row([(1, 2)]), row([(3, 3)])]
    yield "all permutations of up to five registers", [
        row(list(zip(range(1, size + 1), targets)))
        for size in range(1, 6)
        for targets in permutations(range(1, size + 1))
    ]
    yield "chains, from either end", [
        row(order(chain(list(range(1, size)))))
        for size in (4, 7)
        for order in (list, lambda moves: moves[::-1])
    ]
    yield "one source of several targets", [
        row([(1, to) for to in (2, 3, 4)]),
        row([(1, 2), (1, 3), (2, 4), (2, 5), (3, 6)]),
        row([(0, to) for to in range(1, 255)], 255),
    ]
    yield "chains that begin in cycles", [
        row(cycle([1, 2]) + [(1, 3)]),
        row([(1, 3)] + cycle([1, 2])),
        row(cycle([1, 2]) + [(1, 3), (2, 4)]),
        row(cycle([2, 5, 7]) + chain([5, 1, 3, 4])),
        row(chain([5, 1, 3, 4])[::-1] + cycle([7, 5, 2])),
        row(cycle([1, 2, 3, 4]) + [(1, 5), (2, 6), (3, 7), (4, 8)]),
        row(cycle([3, 4]) + [(3, 1), (3, 2), (4, 5)], 0),
    ]
    yield "several cycles", [
        row(cycle([1, 2]) + cycle([3, 4])),
        row(cycle([4, 1]) + cycle([2, 5, 3])),
        row([(1, 3), (2, 4), (3, 1), (4, 2)]),
        row(cycle([1, 2]) + cycle([3, 4]) + [(1, 5), (3, 6), (7, 8), (9, 9)]),
        row(cycle([16, 17]) + cycle([0, 27]) + cycle([9, 10, 11]), 31),
        row([move for pair in range(0, 26, 2) for move in cycle([pair, pair + 1])]),
    ]
    yield "the registers that temporaries are given, turned by one either way", [
        row(cycle(GIVEN)),
        row(cycle(GIVEN)[::-1]),
        row(cycle(GIVEN[::-1])),
        row(cycle(sorted(GIVEN))),
    ]
    yield "the largest registers", [
        row(cycle([254, 255]), 253),
        row(cycle([0, 255]), 254),
        row(cycle(list(range(255))), 255),
        row(cycle(list(range(255, 0, -1))), 0),
    ]


def main():
    parts = [f"# {kind}\n" + "\n".join(rows) for kind, rows in kinds()]
    print("\n\n".join([HEAD.rstrip(), *parts]))


if __name__ == "__main__":
    main()
