#!/usr/bin/env python3
"""Prints words of instructions, as GNU binutils assembles them, for crates/back_rows/data/encodings.rows.

Each row is a word in hexadecimal, an arrow, and the instruction as our Debug text has it. The words
come from an assembler that is not ours, so that the table tests the encoding against another maker's.

Needs Debian's binutils-alpha-linux-gnu. Run at the top of the repository:

    python3 tools/alpha_words.py
"""

from alpha_assembler import assembled

MEMORY = "lda ldah ldbu ldwu stw stb ldl ldq stl stq".split()
BRANCH = "br bsr blbc beq blt ble blbs bne bge bgt".split()
JUMP = "jmp jsr ret".split()
OPERATE = (
    "addl subl cmpult addq s4addq subq cmpeq s8addq cmpule addl/v subl/v cmplt addq/v subq/v cmple "
    "and bic bis cmoveq cmovne ornot xor eqv zapnot srl sll sra mull mulq umulh mull/v mulq/v"
).split()
EXTEND = ["sextb", "sextw"]


def variant(mnemonic):
    """The name of an operation in our enums."""
    name, _, overflow = mnemonic.partition("/")
    return name.capitalize() + overflow.upper()


def rows():
    """Pairs of a line of assembly and the instruction that it stands for."""
    place = 0

    def register(step):
        nonlocal place
        place = (place * 5 + step) % 32
        return place

    for op in MEMORY:
        for disp in (0, 1, -1, 32767, -32768, -8):
            ra, rb = register(7), register(13)
            yield (
                f"{op} ${ra}, {disp}(${rb})",
                f"Memory {{ op: {variant(op)}, ra: {ra}, rb: {rb}, disp: {disp} }}",
            )
    for op in BRANCH:
        for disp in (0, -1, 1048575, -1048576, 1000):
            ra = register(11)
            yield (
                f"{op} ${ra}, .+4+4*({disp})",
                f"Branch {{ op: {variant(op)}, ra: {ra}, disp: {disp} }}",
            )
    for op in JUMP:
        for _ in range(3):
            ra, rb = register(3), register(12)
            yield (
                f"{op} ${ra}, (${rb}), 0",
                f"Jump {{ op: {variant(op)}, ra: {ra}, rb: {rb} }}",
            )
    for op in OPERATE:
        for literal in (None, 0, 255, None, 128):
            ra, rb, rc = register(9), register(21), register(2)
            operand = f"${rb}" if literal is None else f"{literal}"
            second = f"Reg({rb})" if literal is None else f"Literal({literal})"
            yield (
                f"{op} ${ra}, {operand}, ${rc}",
                f"Operate {{ op: {variant(op)}, ra: {ra}, rb: {second}, rc: {rc} }}",
            )
    # this assembler has no literal form of the sign extensions
    for op in EXTEND:
        for _ in range(3):
            rb, rc = register(19), register(6)
            yield (
                f"{op} ${rb}, ${rc}",
                f"Operate {{ op: {variant(op)}, ra: 31, rb: Reg({rb}), rc: {rc} }}",
            )
    for function in (0x83, 0xAA):
        yield (f"call_pal {function:#x}", f"Pal {{ function: {function} }}")


def main():
    table = list(rows())
    for word, (_, instruction) in zip(assembled([line for line, _ in table]), table):
        print(f"{word:08x} => {instruction}")


if __name__ == "__main__":
    main()
