#!/usr/bin/env python3
"""Prints rows of pairs at the edges with what the division routines answer, for crates/back_rows/data/divisions.rows.

The answers are computed from Python's integers: division of signed numbers rounds toward zero. The routines of 32
bits are given the low bits of both words, sign-extended, and answer such words. Run at the top of the repository:

    python3 tools/alpha_divisions.py
"""

MASK = 2**64 - 1
EDGES = [
    0, 1, 2, 3, 7, 10,
    2**31 - 1, 2**31, 2**31 + 1, 2**32 - 1, 2**32,
    2**63 - 1, 2**63, 2**63 + 1,
    -1 & MASK, -2 & MASK, -7 & MASK, -10 & MASK, -(2**31) & MASK, (-(2**31) - 1) & MASK,
]
SIGNS = [
    ("division-signs-long", -7 & MASK, 2),
    ("division-signs-ulong", 2**64 - 1, 10),
    ("division-signs-uint", 2**32 - 1, 2),
    (None, 2**32 - 1, 1),
]


def signed(word, bits):
    word &= 2**bits - 1
    return word - 2**bits if word >> (bits - 1) else word


def rounded(a, b):
    quotient = abs(a) // abs(b)
    return -quotient if (a < 0) != (b < 0) else quotient


def signed_answers(a, b, bits):
    a, b = signed(a, bits), signed(b, bits)
    if b == 0:
        return ["trap-1", "trap-1"]
    if a == -(2 ** (bits - 1)) and b == -1:
        return ["trap-3", "trap-3"]
    quotient = rounded(a, b)
    return [f"{quotient & MASK:x}", f"{(a - quotient * b) & MASK:x}"]


def unsigned_answers(a, b, bits):
    a, b = a % 2**bits, b % 2**bits
    if b == 0:
        return ["trap-1", "trap-1"]
    return [f"{signed(n, bits) & MASK:x}" for n in (a // b, a % b)]


def row(a, b):
    answers = []
    for bits in (64, 32):
        answers += signed_answers(a, b, bits) + unsigned_answers(a, b, bits)
    return f"{a:x} {b:x} => {' '.join(answers)}"


for name, a, b in SIGNS:
    if name:
        print(f"# {name}")
    print(row(a, b))
print()
print("# each pair of edges")
for a in EDGES:
    for b in EDGES:
        print(row(a, b))
