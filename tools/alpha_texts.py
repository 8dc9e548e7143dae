#!/usr/bin/env python3
"""Prints random assembly texts without far branches, each with the words that GNU binutils makes of it.

What is given is a text in the form of docs/formats.md, Assembly text; what is due are its words in hexadecimal,
one a line, where equal words that follow each other are one line with their number. Branches, and the places of
labels, are those of an assembler that is not ours; the addresses of labels and data are computed from these places
here.

Needs Debian's binutils-alpha-linux-gnu. Run at the top of the repository:

    python3 tools/alpha_texts.py
"""

import itertools
import os
import random
import subprocess
import tempfile

TEXTS = 200
TEXT_START = 65536
PART = 65536

MEMORY = "lda ldah ldbu ldwu stw stb ldl ldq stl stq".split()
BRANCH = "br bsr blbc beq blt ble blbs bne bge bgt".split()
JUMP = "jmp jsr ret".split()
OPERATE = (
    "addl subl cmpult addq s4addq subq cmpeq s8addq cmpule addl/v subl/v cmplt addq/v subq/v cmple "
    "and bic bis cmoveq cmovne ornot xor eqv zapnot srl sll sra mull mulq umulh mull/v mulq/v"
).split()


def assembled(lines):
    """The words of these lines by GNU as, and the places of their labels, in words."""
    with tempfile.TemporaryDirectory() as folder:
        source = os.path.join(folder, "lines.s")
        made = os.path.join(folder, "lines.o")
        text = os.path.join(folder, "lines.bin")
        with open(source, "w") as file:
            file.write(".set noat\n.set nomacro\n.set noreorder\n.text\n")
            file.writelines(line + "\n" for line in lines)
        subprocess.run(["alpha-linux-gnu-as", "-mev56", "-o", made, source], check=True)
        names = subprocess.run(["alpha-linux-gnu-nm", made], check=True, capture_output=True, text=True).stdout
        subprocess.run(["alpha-linux-gnu-objcopy", "-O", "binary", "-j", ".text", made, text], check=True)
        with open(text, "rb") as file:
            data = file.read()
    places = {}
    for line in names.splitlines():
        address, _, name = line.split()
        places[name] = int(address, 16) // 4
    count = sum(1 for line in lines if not line.endswith(":"))
    return [int.from_bytes(data[i : i + 4], "little") for i in range(0, 4 * count, 4)], places


def random_text(draw):
    """The items of a text as tuples, and how many bytes of data it has."""
    labels = list(range(draw.randint(1, 8)))
    size = 8 * draw.randint(0, 4)
    items = [("label", label) for label in labels]
    for _ in range(draw.randint(1, 40)):
        ra, rb, rc = (draw.randrange(32) for _ in range(3))
        kind = draw.randrange(7)
        if kind == 0:
            items.append(("plain", f"{draw.choice(MEMORY)} ${ra}, {draw.randint(-32768, 32767)}(${rb})"))
        elif kind == 1:
            second = f"${rb}" if draw.randrange(2) else str(draw.randrange(256))
            items.append(("plain", f"{draw.choice(OPERATE)} ${ra}, {second}, ${rc}"))
        elif kind == 2:
            items.append(("plain", f"{draw.choice(['sextb', 'sextw'])} ${rb}, ${rc}"))
        elif kind == 3:
            items.append(("jump", draw.choice(JUMP), ra, rb))
        elif kind == 4:
            items.append(("branch", draw.choice(BRANCH), ra, draw.choice(labels)))
        elif kind == 5:
            items.append(("text", ra, draw.choice(labels)))
        else:
            items.append(("data", ra, draw.randint(0, size)))
    draw.shuffle(items)
    # label 0 stands before the last word
    items.remove(("label", 0))
    items.insert(0, ("label", 0))
    items.append(("plain", "bis $31, $31, $31"))
    return items, size


def address_lines(ra, address):
    """The two instructions that set a register to an address."""
    high = (address + 32768) // 65536
    return [f"ldah ${ra}, {high}($31)", f"lda ${ra}, {address - high * 65536}(${ra})"]


def source(items, places, start):
    """The lines for GNU as; without places the addresses are 0."""
    lines = []
    for kind, *rest in items:
        if kind == "label":
            lines.append(f"L{rest[0]}:")
        elif kind == "plain":
            lines.append(rest[0])
        elif kind == "jump":
            lines.append(f"{rest[0]} ${rest[1]}, (${rest[2]}), 0")
        elif kind == "branch":
            lines.append(f"{rest[0]} ${rest[1]}, L{rest[2]}")
        elif kind == "text":
            lines += address_lines(rest[0], TEXT_START + 4 * places[f"L{rest[1]}"] if places else 0)
        else:
            lines += address_lines(rest[0], start + rest[1])
    return lines


def spelled(items, size):
    """The text in our own form."""
    lines = [".msa 1"]
    for kind, *rest in items:
        if kind == "label":
            lines.append(f"L{rest[0]}:")
        elif kind == "plain":
            lines.append(rest[0])
        elif kind == "jump":
            lines.append(f"{rest[0]} ${rest[1]}, (${rest[2]})")
        elif kind == "branch":
            lines.append(f"{rest[0]} ${rest[1]}, L{rest[2]}")
        elif kind == "text":
            lines.append(f".text ${rest[0]}, L{rest[1]}")
        else:
            lines.append(f".addr ${rest[0]}, {rest[1]}")
    lines.append(f".data {size}")
    if size:
        lines.append(".hex " + "00" * size)
    return lines


def counted(words):
    """The words, with how often each follows itself."""
    return [(word, len(list(same))) for word, same in itertools.groupby(words)]


def main():
    draw = random.Random(1)
    for _ in range(TEXTS):
        items, size = random_text(draw)
        words, places = assembled(source(items, None, 0))
        start = (TEXT_START + 4 * len(words) + PART - 1) // PART * PART
        words, _ = assembled(source(items, places, start))
        print("\n".join(spelled(items, size)) + " =>")
        for word, times in counted(words):
            print(f"  {word:08x}" + (f" {times} times" if times > 1 else ""))
        print()


if __name__ == "__main__":
    main()
