"""Makes an assembly text of about four million items, always the same.

usage: bench/made_assembly.py KIND FILE

The kinds: `short` (a branch to a near label in every third item), `far` (the same to labels at the other end of the
text), `row` (branches ahead over as many words as they may, of which the last is made far by one back, and each makes
the one before it far) and `hostile` (branches ahead and back that make each other far by turns, so that a sweep in
either direction finds one of them).
"""
import sys

ITEMS = 4_000_000
REACH = 1 << 20
FILLER = "call_pal 131\n"


def short():
    for k in range(ITEMS // 3):
        yield f"L{k}:\nbeq $1, L{max(k - 5, 0)}\n" + FILLER


def far():
    last = ITEMS // 3 - 1
    for k in range(last + 1):
        yield f"L{k}:\nbeq $1, L{last - k}\n" + FILLER


def row():
    # two words for each label, of which the first is a branch as long as its label stands in the text
    count = ITEMS // 3
    ahead = REACH // 2
    for k in range(count):
        if k == count - 1:
            yield "beq $3, L0\n"
        yield f"L{k}:\n" + (f"bne $2, L{k + ahead}\n" if k + ahead < count else FILLER) + FILLER


def hostile():
    # a branch ahead to the end and one back to the front by turns: each has room for the growth of those before it
    pairs = (REACH - 8) // 6
    for copy in range(ITEMS // REACH + 1):
        yield f"L{2 * copy}:\n"
        for _ in range(pairs):
            yield f"beq $1, L{2 * copy + 1}\n" + 2 * FILLER
        yield (REACH + 1 - 6 * pairs - 3) * FILLER
        for _ in range(pairs):
            yield 2 * FILLER + f"bne $2, L{2 * copy}\n"
        yield 3 * FILLER + f"L{2 * copy + 1}:\n"


KINDS = {"short": short, "far": far, "row": row, "hostile": hostile}


def main():
    kind, path = sys.argv[1:]
    with open(path, "w") as file:
        file.write(".msa 1\n")
        file.writelines(KINDS[kind]())
        file.write(FILLER + ".data 0\n")


if __name__ == "__main__":
    main()
