"""Runs the rows of `place.rows`, and those of how deep texts nest, through `tools/place`."""
import glob
import os
import re
import subprocess
import tempfile

from place_advice import Tokens, nesting

HERE = os.path.dirname(os.path.abspath(__file__))
TOP = os.path.dirname(os.path.dirname(HERE))
ESCAPE = re.compile(rb"\\(?:x([0-9A-Fa-f]{2})|([0-9]+)\{((?:\\.|[^}\\])*)\}|(.))")
NAMED = {b"n": b"\n", b"t": b"\t", b"r": b"\r"}


def text_of(written):
    """The bytes of a text that is written with escapes; `\\3{ab}` is `ababab`."""
    def value(match):
        code, count, repeated, char = match.groups()
        if code:
            return bytes([int(code, 16)])
        if count:
            return ESCAPE.sub(value, repeated) * int(count)
        return NAMED.get(char, char)
    return ESCAPE.sub(value, written.encode())


def rows(path):
    """The rows of a file: each its number and its columns."""
    with open(path, encoding="utf-8") as file:
        for number, line in enumerate(file, 1):
            line = line.rstrip("\n")
            if line and not line.startswith("#"):
                yield number, line.split(" => ")


def wrong_caret(data, offset, lines):
    """Whether the caret is not below the byte at the offset, where a terminal shows that as one character."""
    shown, caret = (it.expandtabs(8) for it in lines)
    if caret.strip() != "^":
        return True
    at = caret.index("^")
    if offset < len(data) and 32 < data[offset] < 127 and shown.isascii():
        return shown[at:at + 1] != chr(data[offset])
    return False


def wrong(told, data, columns):
    """What is wrong with what is told of a row, or None."""
    refusal, place, said = columns
    lines = told("a.c", data, "msc: " + refusal)
    advice = lines[-1] if lines and not lines[-1].endswith("^") else ""
    if said not in advice:
        return f"{said!r} is not in {advice!r}"
    if place == "-":
        return f"there is a place: {lines}" if len(lines) > 1 else None
    if not lines or lines[0] != place:
        return f"{place} is due, and came {lines[:1]}"
    number = re.fullmatch(r"\w+ at ([0-9]+)", refusal)
    if number and int(number.group(1)) < len(data) and wrong_caret(data, int(number.group(1)), lines[1:3]):
        return f"the caret is wrong:\n{lines[1]}\n{lines[2]}"
    if max(len(line) for line in lines[:3]) > 130:
        return "a line is too long"
    return None


def refused(program, data):
    """The line that the compiler says of a text."""
    with tempfile.TemporaryDirectory() as folder:
        name = os.path.join(folder, "a.c")
        with open(name, "wb") as file:
            file.write(data)
        ran = subprocess.run([program, "print", name, "--pass", "tree"], capture_output=True)
    return ran.stderr.decode(errors="replace").strip().removeprefix("msc: ")


def run(told, program=None):
    """Compares all rows; with a program, also what it says of their texts."""
    bad = count = 0
    for number, columns in rows(os.path.join(HERE, "place.rows")):
        data = text_of(columns[0])
        fault = wrong(told, data, columns[1:])
        if not fault and program and columns[2] != "-" and not columns[1].startswith("assembly"):
            came = refused(program, data)
            fault = None if came == columns[1] else f"the compiler says {came!r}"
        count += 1
        if fault:
            bad += 1
            print(f"place.rows:{number}: {fault}")
    # how deep texts nest has rows of its own
    for path in glob.glob(os.path.join(TOP, "crates", "*", "data", "nesting.rows")):
        for number, (written, due) in rows(path):
            if due.isdigit():
                chain = nesting(Tokens(text_of(written.strip(" "))))
                count += 1
                if (chain[0].whole if chain else 0) != int(due):
                    bad += 1
                    print(f"nesting.rows:{number}: {due} is due, and came {chain[0].whole if chain else 0}")
    print(f"{count} rows, {bad} wrong")
    return 1 if bad else 0
