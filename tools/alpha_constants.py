#!/usr/bin/env python3
"""Prints rows of words with the code that makes them, for crates/back_rows/data/constants.rows.

Each word is made by displacements of 16 bits, one of which may be moved up by 16 bits, and then perhaps by a shift, a
cut to the low half, or a shift by 32 bits and the displacements of the low half. The shortest of these that makes the
word is printed, the earlier where two are as short; what it makes is computed from Python's integers. Run at the top of
the repository:

    python3 tools/alpha_constants.py
"""

MASK = 2**64 - 1
WORDS = [
    0, 1, 2, 0x7F, 0xFF, 0x100, 0x7FFE, 0x7FFF, 0x8000, 0x8001, 0xFFFF, 0x10000, 0x10001, 0x17FFF, 0x18000,
    0x12345678, 0x7FFF0000, 0x7FFF7FFF, 0x7FFF8000, 0x7FFFFFFF, 0x80000000, 0x80000001, 0x89ABCDEF, 0xABCD0000,
    0xFFFF8000, 0xFFFFFFFE, 0xFFFFFFFF, 0x100000000, 0x100000001, 0x123456789, 0x7FFFFFFFFFFF, 0x800000000000,
    0xFFFFFFFFFFFF, 0x1000000000000, 0x123456789ABCDEF0, 0x0F0F0F0F0F0F0F0F, 0x5555555555555555, 0x3FFFFFFFFFFF0000,
    0x7FFF800000000000, 0x7FFFFFFF00000000, 0x7FFFFFFF7FFFFFFF, 0x7FFFFFFF80000000, 0x7FFFFFFFFFFF8000,
    0x7FFFFFFFFFFFFFFF, 0x8000000000000000, 0x8000000000000001, 0x89ABCDEF01234567, 0xAAAAAAAAAAAAAAAA,
    0xDEADBEEF00000000, 0xFEDCBA9876543210, -1 & MASK, -2 & MASK, -128 & MASK, -32768 & MASK, -32769 & MASK,
    -65536 & MASK, -65537 & MASK, -(2**31) & MASK, (-(2**31) - 1) & MASK, -(2**40) & MASK,
]


def signed(number):
    number &= 0xFFFF
    return number - 0x10000 if number & 0x8000 else number


def parts(number):
    """The displacements of `ldah` and `lda` that make the low 32 bits of a number."""
    low = signed(number)
    return signed((number - low) >> 16), low


def displacements(number, base):
    high, low = parts(number)
    code = []
    if high:
        code.append(("ldah", high, base))
        base = "t0"
    if low or not code and base == "$31":
        code.append(("lda", low, base))
    return code


def run(code):
    word = 0
    for name, number, base in code:
        start = 0 if base == "$31" else word
        word = {
            "lda": lambda: start + number,
            "ldah": lambda: start + number * 0x10000,
            "bis": lambda: start | number,
            "sll": lambda: start << number,
            "srl": lambda: start >> number,
            "zapnot": lambda: start & 0xFFFFFFFF,
        }[name]() & MASK
    return word


def candidates(word):
    zeros = (word & -word).bit_length() - 1
    places = 64 - word.bit_length()
    upper = (word - run(displacements(word, "$31")) & MASK) >> 32
    yield displacements(word, "$31")
    yield displacements(word, "$31") + [("zapnot", 15, "t0")]
    yield displacements(word >> zeros, "$31") + [("sll", zeros, "t0")]
    yield displacements(word << places, "$31") + [("srl", places, "t0")]
    yield displacements((word << places) + 2**places - 1, "$31") + [("srl", places, "t0")]
    lower = [item for item in displacements(word, "t0") if item[1]]
    yield displacements(upper, "$31") + [("sll", 32, "t0")] + lower


def shortest(word):
    if word == 0:
        return [("bis", 0, "$31")]
    makers = [code for code in candidates(word) if run(code) == word]
    return min(makers, key=len)


def line(name, number, base):
    if name in ("lda", "ldah"):
        return f"{name} t0, {number}({base})"
    return f"{name} {base}, {number}, t0"


def main():
    for word in WORDS:
        code = shortest(word)
        assert run(code) == word
        print(f"{word:x} => {'; '.join(line(*item) for item in code)}")


if __name__ == "__main__":
    main()
