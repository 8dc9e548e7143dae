#!/usr/bin/env python3
"""Prints rows of operations on C's integers, for crates/back_rows/data/integers.rows.

The values come from a C compiler on this machine: a program is written that computes each operation in C, in the
types that C gives to it, and prints the value. An operation that traps or has no meaning is told beforehand by
Python's whole numbers, by C99 6.5, and is not computed in C. A word has 8 bytes as they are, 4 bytes with bit 31 in
all bits above it, and fewer with their sign.

Run at the top of the repository, with a compiler of a machine whose types have the same sizes:

    python3 tools/integer_rows.py
"""

import pathlib
import subprocess
import tempfile

TYPES = {
    "char": ("signed char", 8, True),
    "unsigned-char": ("unsigned char", 8, False),
    "short": ("short", 16, True),
    "unsigned-short": ("unsigned short", 16, False),
    "int": ("int", 32, True),
    "unsigned-int": ("unsigned int", 32, False),
    "long": ("long", 64, True),
    "unsigned-long": ("unsigned long", 64, False),
}
PROMOTED = ["int", "unsigned-int", "long", "unsigned-long"]
MARKS = {
    "add": "+", "subtract": "-", "multiply": "*", "divide": "/", "remainder": "%",
    "and": "&", "or": "|", "exclusive-or": "^",
    "less": "<", "less-or-equal": "<=", "equal": "==",
}


def edges(name):
    """Values of a type at its edges."""
    _, bits, is_signed = TYPES[name]
    if is_signed:
        return [0, 1, -1, 7, -7, 2 ** (bits - 1) - 1, -(2 ** (bits - 1)), 2 ** (bits - 2) + 3]
    return [0, 1, 7, 2 ** (bits - 1) - 1, 2 ** (bits - 1), 2**bits - 1]


def word(name, value):
    """The word of a value, as 64 bits."""
    _, bits, is_signed = TYPES[name]
    low = value & (2**bits - 1)
    if bits == 64 or not (is_signed or bits == 32):
        return low
    return (low - 2**bits if low >> (bits - 1) else low) & (2**64 - 1)


def fits(name, value):
    _, bits, is_signed = TYPES[name]
    return -(2 ** (bits - 1)) <= value < 2 ** (bits - 1) if is_signed else 0 <= value < 2**bits


def literal(name, value):
    """A C expression of the type with the value, by its bits."""
    return f"(({TYPES[name][0]})0x{value & (2**64 - 1):x}ul)"


def trap(operation, name, a, b):
    """The code of the trap by which an operation ends, or None."""
    _, _, is_signed = TYPES[name]
    if operation in ("divide", "remainder") and b == 0:
        return 1
    if not is_signed:
        return None
    whole = {"add": a + b, "subtract": a - b, "multiply": a * b}.get(operation, 0)
    if operation in ("divide", "remainder") and b == -1:
        whole = -a
    return None if fits(name, whole) else 3


class Sheet:
    """Rows whose due words are yet to be computed in C."""

    def __init__(self):
        self.rows = []
        self.sums = []

    def due(self, given, answer):
        self.rows.append((given, answer))

    def computed(self, given, form, result, expression):
        """A row whose answer is the value of a C expression in a type."""
        self.rows.append((given, None))
        self.sums.append((form, result, expression))

    def print(self):
        values = iter(run([expression for _, _, expression in self.sums]))
        forms = iter(self.sums)
        for given, answer in self.rows:
            if answer is None:
                form, result, _ = next(forms)
                value = next(values)
                answer = form(result, value)
            print(f"{given} => {answer}")


def run(expressions):
    """The values of C expressions, each as the 64 bits to which it is converted."""
    lines = "".join(f'    printf("%lx\\n", (unsigned long)({e}));\n' for e in expressions)
    program = f"#include <stdio.h>\n\nint main(void)\n{{\n{lines}    return 0;\n}}\n"
    with tempfile.TemporaryDirectory() as folder:
        source = pathlib.Path(folder, "rows.c")
        source.write_text(program)
        target = pathlib.Path(folder, "rows")
        subprocess.run(["gcc", "-std=c99", "-w", "-fwrapv", "-O0", str(source), "-o", str(target)], check=True)
        text = subprocess.run([str(target)], check=True, capture_output=True, text=True).stdout
    return [int(line, 16) for line in text.split()]


def outcome(name, value):
    return f"word {word(name, value):x}"


def truth(_, value):
    return "true" if value else "false"


def plain(name, value):
    return f"{word(name, value):x}"


def binary(sheet):
    for operation, mark in MARKS.items():
        for name in PROMOTED:
            values = edges(name)
            pairs = [(a, b) for i, a in enumerate(values) for j, b in enumerate(values) if (i * 5 + j * 3) % 4 == 0]
            pairs += [(values[-1], values[1]), (values[0], values[0])]
            if TYPES[name][2]:
                pairs += [(values[6], -1), (values[5], 1), (values[6], 1), (values[5], -1), (-7, 2), (7, -2)]
            for a, b in dict.fromkeys(pairs):
                given = f"{operation} {name} {word(name, a):x} {word(name, b):x}"
                code = trap(operation, name, a, b)
                expression = f"{literal(name, a)} {mark} {literal(name, b)}"
                if code is not None:
                    sheet.due(given, f"trap {code}")
                elif operation in ("less", "less-or-equal", "equal"):
                    sheet.computed(given, truth, name, expression)
                elif operation in ("and", "or", "exclusive-or"):
                    sheet.computed(given, plain, name, expression)
                else:
                    sheet.computed(given, outcome, name, expression)


def unary(sheet):
    for name in PROMOTED:
        for a in edges(name):
            given = f"negate {name} {word(name, a):x}"
            if TYPES[name][2] and not fits(name, -a):
                sheet.due(given, "trap 3")
            else:
                sheet.computed(given, outcome, name, f"-{literal(name, a)}")
            sheet.computed(f"complement {name} {word(name, a):x}", plain, name, f"~{literal(name, a)}")


def shifts(sheet):
    for operation, mark in (("shift-left", "<<"), ("shift-right", ">>")):
        for name in PROMOTED:
            bits = TYPES[name][1]
            for a in edges(name)[2:]:
                for counted, count in (("int", 0), ("int", 1), ("long", 7), ("unsigned-long", bits - 1),
                                       ("int", bits), ("int", -1), ("unsigned-int", 2**32 - 1), ("long", 2**32)):
                    given = f"{operation} {name} {counted} {word(name, a):x} {word(counted, count):x}"
                    if 0 <= count < bits:
                        sheet.computed(given, outcome, name, f"{literal(name, a)} {mark} {literal(counted, count)}")
                    else:
                        sheet.due(given, "undefined")


def conversions(sheet):
    for source in TYPES:
        for target, (spelled, _, _) in TYPES.items():
            for a in edges(source)[1:]:
                sheet.computed(f"convert {source} {target} {word(source, a):x}", plain, target, f"({spelled}){literal(source, a)}")


def named(expression):
    """The name of the type of an expression, by its size and whether its least value is below 0."""
    return f"sizeof({expression}) * 2 + ((__typeof__({expression}))-1 < 0)"


def types(sheet):
    names = {8: "int", 9: "int", 16: "long", 17: "long"}

    def told(_, value):
        return ("" if value % 2 else "unsigned-") + names[value]

    for name, (spelled, _, _) in TYPES.items():
        sheet.computed(f"promoted {name}", told, name, named(f"+({spelled})1"))
        for other, (beside, _, _) in TYPES.items():
            sheet.computed(f"common {name} {other}", told, name, named(f"({spelled})1 + ({beside})1"))


def main():
    sheet = Sheet()
    types(sheet)
    conversions(sheet)
    unary(sheet)
    binary(sheet)
    shifts(sheet)
    sheet.print()


if __name__ == "__main__":
    main()
