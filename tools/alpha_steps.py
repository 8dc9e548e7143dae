#!/usr/bin/env python3
"""Prints rows of single steps with operands at the edges, for crates/back_rows/data/steps.rows.

Each row is a word with the words of $2, $3, $4 and memory, then what the step leaves: where it goes on, $4
and memory, or how the run ends there. The words come from GNU as, and the results from Python's integers by
the text of the Alpha Architecture Handbook, and so neither from our code. Operations read $2 and $3 and write
$4; loads and stores have the address of memory in $1; branches and jumps write the next address to $4.
With the word `frame` it prints the program that the step stands in, for crates/machine_rows/src/steps.rt.

Needs Debian's binutils-alpha-linux-gnu. Run at the top of the repository:

    python3 tools/alpha_steps.py
"""

import sys

from alpha_assembler import assembled

MASK = 2**64 - 1
KEPT = 7777
MAX64, MIN64 = 2**63 - 1, 2**63
MAX32, MIN32 = 2**31 - 1, (-(2**31)) & MASK
ONES = MASK


def signed(word, bits):
    word &= 2**bits - 1
    return word - 2**bits if word >> (bits - 1) else word


def extended(word, bits):
    return signed(word, bits) & MASK


def checked(number, bits):
    fits = -(2 ** (bits - 1)) <= number < 2 ** (bits - 1)
    return number & MASK if fits else "trap"


def kept_bytes(word, mask):
    return sum((word >> 8 * k & 255) << 8 * k for k in range(8) if mask >> k & 1)


OPERATIONS = {
    "addl": lambda a, b: extended(a + b, 32),
    "subl": lambda a, b: extended(a - b, 32),
    "cmpult": lambda a, b: int(a < b),
    "addq": lambda a, b: (a + b) & MASK,
    "s4addq": lambda a, b: (4 * a + b) & MASK,
    "subq": lambda a, b: (a - b) & MASK,
    "cmpeq": lambda a, b: int(a == b),
    "s8addq": lambda a, b: (8 * a + b) & MASK,
    "cmpule": lambda a, b: int(a <= b),
    "addl/v": lambda a, b: checked(signed(a, 32) + signed(b, 32), 32),
    "subl/v": lambda a, b: checked(signed(a, 32) - signed(b, 32), 32),
    "cmplt": lambda a, b: int(signed(a, 64) < signed(b, 64)),
    "addq/v": lambda a, b: checked(signed(a, 64) + signed(b, 64), 64),
    "subq/v": lambda a, b: checked(signed(a, 64) - signed(b, 64), 64),
    "cmple": lambda a, b: int(signed(a, 64) <= signed(b, 64)),
    "and": lambda a, b: a & b,
    "bic": lambda a, b: a & ~b & MASK,
    "bis": lambda a, b: a | b,
    "cmoveq": lambda a, b: b if a == 0 else KEPT,
    "cmovne": lambda a, b: b if a != 0 else KEPT,
    "ornot": lambda a, b: a | (~b & MASK),
    "xor": lambda a, b: a ^ b,
    "eqv": lambda a, b: a ^ (~b & MASK),
    "zapnot": kept_bytes,
    "srl": lambda a, b: a >> (b & 63),
    "sll": lambda a, b: (a << (b & 63)) & MASK,
    "sra": lambda a, b: (signed(a, 64) >> (b & 63)) & MASK,
    "mull": lambda a, b: extended(a * b, 32),
    "mulq": lambda a, b: (a * b) & MASK,
    "umulh": lambda a, b: a * b >> 64,
    "mull/v": lambda a, b: checked(signed(a, 32) * signed(b, 32), 32),
    "mulq/v": lambda a, b: checked(signed(a, 64) * signed(b, 64), 64),
    "sextb": lambda a, b: extended(b, 8),
    "sextw": lambda a, b: extended(b, 16),
}

PAIRS = {
    "addl": [(MAX32, 1), (ONES, 1), (MAX64, MAX64)],
    "subl": [(MIN32, 1), (0, 1), (2**32, 0)],
    "cmpult": [(1, ONES), (ONES, 1), (0, 0)],
    "addq": [(ONES, 1), (MAX64, 1)],
    "s4addq": [(MIN64, 5), (ONES, 3)],
    "subq": [(0, 1), (MIN64, 1)],
    "cmpeq": [(ONES, ONES), (0, MIN64)],
    "s8addq": [(2**61, 7), (ONES, 8)],
    "cmpule": [(ONES, 0), (MIN64, MIN64)],
    "addl/v": [(MAX32, 0), (MAX32, 1), (MIN32, ONES), (2**32 + 1, 1)],
    "subl/v": [(MIN32, 1), (MIN32, 0), (0, MIN32)],
    "cmplt": [(ONES, 0), (0, ONES), (MIN64, MAX64)],
    "addq/v": [(MAX64, 0), (MAX64, 1), (MIN64, ONES)],
    "subq/v": [(MIN64, 1), (0, MIN64), (ONES, MIN64)],
    "cmple": [(MIN64, ONES), (MAX64, MIN64), (0, 0)],
    "and": [(ONES, MIN64)],
    "bic": [(ONES, MAX64)],
    "bis": [(MIN64, 1)],
    "cmoveq": [(0, 5), (MIN64, 5)],
    "cmovne": [(0, 5), (2**32, 5)],
    "ornot": [(0, ONES), (1, MIN64)],
    "xor": [(ONES, MAX64)],
    "eqv": [(ONES, 0), (MIN64, MIN64)],
    "zapnot": [(0x0123456789ABCDEF, 0x0F), (ONES, 0x81), (ONES, 0x100)],
    "srl": [(MIN64, 0), (MIN64, 31), (MIN64, 32), (MIN64, 63), (MIN64, 64)],
    "sll": [(ONES, 0), (1, 31), (1, 32), (3, 63)],
    "sra": [(MIN64, 0), (MIN64, 31), (MIN64, 32), (MIN64, 63), (MAX64, 63)],
    "mull": [(MAX32, MAX32), (2**16, 2**15)],
    "mulq": [(ONES, ONES), (MIN64, 3)],
    "umulh": [(ONES, ONES), (MIN64, 2), (2**32, 2**31)],
    "mull/v": [(MIN32, ONES), (MIN32, 1), (46341, 46341)],
    "mulq/v": [(MIN64, ONES), (MIN64, 1), (2**32, 2**31)],
    "sextb": [(0, 0x80), (0, 0x17F)],
    "sextw": [(0, 0x8000), (0, 0x17FFF)],
}

# The step is the seventh word. Behind it `$5` is set, which a step that goes ahead passes over, and a step
# that goes behind comes to the first word, where it is set to another number. Then `$5`, `$4` and memory are put.
FRAME = """
lda $5, 2($31)
br $31, .+4+4*6
ldah $1, 2($31)
ldq $2, 8($1)
ldq $3, 16($1)
ldq $4, 24($1)
call_pal 0
lda $5, 1($31)
bis $31, $5, $16
lda $0, 2($31)
call_pal 0x83
lda $6, 8($31)
bis $31, $4, $16
lda $0, 2($31)
call_pal 0x83
srl $4, 8, $4
subq $6, 1, $6
bne $6, .+4+4*(-6)
ldah $1, 2($31)
ldq $4, 0($1)
lda $6, 8($31)
bis $31, $4, $16
lda $0, 2($31)
call_pal 0x83
srl $4, 8, $4
subq $6, 1, $6
bne $6, .+4+4*(-6)
bis $31, $31, $16
lda $0, 1($31)
call_pal 0x83
""".strip().split("\n")

TEXT = 65536
STEP = TEXT + 4 * 6
AFTER = STEP + 4
AHEAD = STEP + 8
PLACES = {AFTER: "next", AHEAD: "ahead", TEXT: "behind"}

LOADS = {"ldbu": (1, False), "ldwu": (2, False), "ldl": (4, True), "ldq": (8, False)}
STORES = {"stb": 1, "stw": 2, "stl": 4, "stq": 8}
HELD = 0x80FF7F0180FF8081
TRAPPED = "Trap { code: 3 }"
STUCK = f"Stuck {{ pc: {STEP} }}"


# The tests that branches make of their register.
TESTS = {
    "blbc": lambda a: a % 2 == 0,
    "blbs": lambda a: a % 2 == 1,
    "beq": lambda a: a == 0,
    "bne": lambda a: a != 0,
    "blt": lambda a: signed(a, 64) < 0,
    "bge": lambda a: signed(a, 64) >= 0,
    "ble": lambda a: signed(a, 64) <= 0,
    "bgt": lambda a: signed(a, 64) > 0,
}

TESTED = [0, 1, 2, ONES, ONES - 1, MAX64, MIN64, MIN64 + 1, 2**32]


def load(name, held, displacement):
    """What was loaded, or how the run ends."""
    size, is_signed = LOADS[name]
    if displacement % size:
        return STUCK
    read = held >> 8 * displacement & (2 ** (8 * size) - 1)
    return extended(read, 32) if is_signed else read


def store(name, word, held, displacement):
    """What memory holds then, or how the run ends."""
    size = STORES[name]
    if displacement % size:
        return STUCK
    part = (2 ** (8 * size) - 1) << 8 * displacement
    return held & ~part | (word << 8 * displacement & part)


def left(place, register, memory):
    """What a step leaves that goes on at a place, or ends the run there."""
    for ending in (register, memory):
        if isinstance(ending, str):
            return ending
    return f"{PLACES[place]} {register:x} {memory:x}"


def operation_rows():
    for name, pairs in PAIRS.items():
        line = f"{name} $3, $4" if name.startswith("sext") else f"{name} $2, $3, $4"
        for a, b in pairs:
            result = OPERATIONS[name](a, b)
            yield line, (a, b, KEPT, HELD), left(AFTER, TRAPPED if result == "trap" else result, HELD)


def memory_rows():
    for name, (size, _) in LOADS.items():
        for displacement in sorted({0, 8 - size, 3}):
            line = f"{name} $4, {displacement}($1)"
            yield line, (0, 0, KEPT, HELD), left(AFTER, load(name, HELD, displacement), HELD)
    for name, size in STORES.items():
        for displacement in sorted({0, 8 - size, 5}):
            line = f"{name} $2, {displacement}($1)"
            yield line, (HELD, 0, KEPT, ONES), left(AFTER, KEPT, store(name, HELD, ONES, displacement))


def address_rows():
    for name, unit in (("lda", 1), ("ldah", 65536)):
        for displacement in (0, 1, -1, 32767, -32768):
            for base in (0, ONES, MAX64, MIN64, MAX32):
                result = (base + unit * displacement) & MASK
                yield f"{name} $4, {displacement}($2)", (base, 0, KEPT, HELD), left(AFTER, result, HELD)
        yield f"{name} $4, 7($31)", (0, 0, KEPT, HELD), left(AFTER, 7 * unit, HELD)
        yield f"{name} $31, 7($2)", (5, 0, KEPT, HELD), left(AFTER, KEPT, HELD)


def branch_rows():
    for name in ("br", "bsr"):
        for displacement in (1, 0, -7):
            line = f"{name} $4, .+4+4*({displacement})"
            yield line, (0, 0, KEPT, HELD), left(AFTER + 4 * displacement, AFTER, HELD)
        yield f"{name} $31, .+4+4*1", (0, 0, KEPT, HELD), left(AHEAD, KEPT, HELD)
    for name, test in TESTS.items():
        for number, a in enumerate(TESTED):
            displacement = -7 if number % 2 else 1
            place = AFTER + 4 * displacement if test(a) else AFTER
            yield f"{name} $2, .+4+4*({displacement})", (a, 0, KEPT, HELD), left(place, KEPT, HELD)
        place = AHEAD if test(0) else AFTER
        yield f"{name} $31, .+4+4*1", (ONES, 0, KEPT, HELD), left(place, KEPT, HELD)


def jump_rows():
    for name in ("jmp", "jsr", "ret"):
        for target in (AFTER, AHEAD, AHEAD + 1, AHEAD + 3, TEXT, TEXT + 2):
            line = f"{name} $4, ($2), 0"
            yield line, (target, 0, KEPT, HELD), left(target // 4 * 4, AFTER, HELD)
        yield f"{name} $4, ($4), 0", (0, 0, AHEAD, HELD), left(AHEAD, AFTER, HELD)
        yield f"{name} $31, ($2), 0", (TEXT, 0, KEPT, HELD), left(TEXT, KEPT, HELD)
    for target in (0, TEXT - 4, TEXT + 4 * len(FRAME), 2**32 + AHEAD, MIN64 + AHEAD):
        place = target // 4 * 4
        yield "jmp $4, ($2), 0", (target, 0, KEPT, HELD), f"Stuck {{ pc: {place} }}"


def rows():
    """A line of assembly, the words of $2, $3, $4 and memory, and what the step leaves."""
    yield from operation_rows()
    yield from memory_rows()
    yield from address_rows()
    yield from branch_rows()
    yield from jump_rows()


def main():
    if sys.argv[1:] == ["frame"]:
        for word, line in zip(assembled(FRAME), FRAME):
            print(f"    0x{word >> 16:04x}_{word & 0xFFFF:04x}, // {line}")
        return
    table = list(rows())
    for word, (_, given, due) in zip(assembled([row[0] for row in table]), table):
        words = " ".join(f"{number:x}" for number in given)
        print(f"{word:08x} {words} => {due}")


if __name__ == "__main__":
    main()
