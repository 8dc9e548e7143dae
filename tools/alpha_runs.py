#!/usr/bin/env python3
"""Runs of images by a machine in Python, for crates/back_rows/data/runs.rows.

usage: alpha_runs.py [--write] [FILE]    says which rows of the file differ from the model
       alpha_runs.py --image IMAGE       prints the lines of a row that give an image, as `msc build` writes it

The model is written from docs/formats.md ("Alpha") and the Alpha Architecture Handbook, and not from our code. With
--write it puts what is due behind each row that has nothing there.
"""
import os
import re
import sys

from alpha_steps import LOADS, MASK, OPERATIONS, STORES, TESTS, extended, signed

FILE = os.path.join(os.path.dirname(os.path.abspath(__file__)), "..", "crates", "back_rows", "data", "runs.rows")
MEMORY = {0x0A: "ldbu", 0x0C: "ldwu", 0x0D: "stw", 0x0E: "stb", 0x28: "ldl", 0x29: "ldq", 0x2C: "stl", 0x2D: "stq"}
BRANCHES = {0x38: "blbc", 0x39: "beq", 0x3A: "blt", 0x3B: "ble", 0x3C: "blbs", 0x3D: "bne", 0x3E: "bge", 0x3F: "bgt"}
OPERATES = {
    0x10: {0x00: "addl", 0x09: "subl", 0x1D: "cmpult", 0x20: "addq", 0x22: "s4addq", 0x29: "subq", 0x2D: "cmpeq",
           0x32: "s8addq", 0x3D: "cmpule", 0x40: "addl/v", 0x49: "subl/v", 0x4D: "cmplt", 0x60: "addq/v",
           0x69: "subq/v", 0x6D: "cmple"},
    0x11: {0x00: "and", 0x08: "bic", 0x20: "bis", 0x24: "cmoveq", 0x26: "cmovne", 0x28: "ornot", 0x40: "xor",
           0x48: "eqv"},
    0x12: {0x31: "zapnot", 0x34: "srl", 0x39: "sll", 0x3C: "sra"},
    0x13: {0x00: "mull", 0x20: "mulq", 0x30: "umulh", 0x40: "mull/v", 0x60: "mulq/v"},
    0x1C: {0x00: "sextb", 0x01: "sextw"},
}
PART = 65536
STACK = 4096


def next_part(end):
    return (end + PART - 1) // PART * PART


class Stuck(Exception):
    pass


class Machine:
    def __init__(self, words, data, entry):
        self.words = words
        data_at = next_part(PART + 4 * len(words))
        stack_at = next_part(data_at + len(data))
        self.pieces = [(data_at, bytearray(data)), (stack_at, bytearray(STACK))]
        self.registers = [0] * 32
        self.registers[30] = stack_at + STACK
        self.pc = PART + 4 * entry
        self.steps = self.written = 0
        self.halt = None

    def piece(self, address, size):
        if address % size == 0:
            for start, held in self.pieces:
                if start <= address and address + size <= start + len(held):
                    return held, address - start
        raise Stuck

    def set(self, register, word):
        if register != 31:
            self.registers[register] = word & MASK

    def service(self, source, sink):
        """How the run ends there, if it does."""
        number = self.registers[0]
        if number == 1:
            self.halt = f"Done {{ status: {self.registers[16] % 256} }}"
            return self.halt
        if number == 2:
            if not sink(self.registers[16] % 256):
                return "WriteFault"
            self.written += 1
            return None
        if number == 3:
            byte = source()
            if byte is None:
                return "InputFault"
            self.registers[0] = byte & MASK
            return None
        raise Stuck

    def operate(self, word, a):
        name = OPERATES[word >> 26].get(word >> 5 & 0x7F)
        is_literal = word >> 12 & 1
        if name is None or not is_literal and word >> 13 & 7 or name.startswith("sext") and word >> 21 & 31 != 31:
            raise Stuck
        b = word >> 13 & 0xFF if is_literal else self.registers[word >> 16 & 31]
        if name in ("cmoveq", "cmovne"):
            if (a == 0) == (name == "cmoveq"):
                self.set(word & 31, b)
            return None
        result = OPERATIONS[name](a, b)
        if result == "trap":
            return "Trap { code: 3 }"
        self.set(word & 31, result)
        return None

    def turn(self, source, sink):
        """One step. It answers how the run ends, if it does."""
        at = (self.pc - PART) // 4
        if not PART <= self.pc < PART + 4 * len(self.words):
            raise Stuck
        word = self.words[at]
        opcode, ra = word >> 26, word >> 21 & 31
        a, b = self.registers[ra], self.registers[word >> 16 & 31]
        low, after = signed(word, 16), self.pc + 4
        if opcode == 0 and word == 0x83:
            ending = self.service(source, sink)
            if ending in ("WriteFault", "InputFault"):
                return ending
        elif opcode == 0 and word == 0xAA:
            ending = self.halt = f"Trap {{ code: {self.registers[16]} }}"
        elif opcode in (0x08, 0x09):
            ending = self.set(ra, b + low * (1 if opcode == 0x08 else PART))
        elif opcode in MEMORY:
            ending = self.access(MEMORY[opcode], ra, (b + low) & MASK)
        elif opcode in OPERATES:
            ending = self.halt = self.operate(word, a)
        elif opcode == 0x1A and word >> 14 & 3 != 3 and word & 0x3FFF == 0:
            ending, after = self.set(ra, after), b // 4 * 4
        elif opcode in (0x30, 0x34):
            ending, after = self.set(ra, after), after + 4 * signed(word, 21)
        elif opcode in BRANCHES:
            ending, after = None, after + 4 * signed(word, 21) * TESTS[BRANCHES[opcode]](a)
        else:
            raise Stuck
        self.steps += 1
        if ending is None:
            self.pc = after & MASK
        return ending

    def access(self, name, register, address):
        if name in LOADS:
            size, is_signed = LOADS[name]
            held, at = self.piece(address, size)
            word = int.from_bytes(held[at : at + size], "little")
            self.set(register, extended(word, 32) if is_signed else word)
        else:
            held, at = self.piece(address, STORES[name])
            word = self.registers[register] % 2 ** (8 * STORES[name])
            held[at : at + STORES[name]] = word.to_bytes(STORES[name], "little")

    def run(self, budget, source, sink):
        if self.halt:
            return self.halt
        for _ in range(budget):
            try:
                ending = self.turn(source, sink)
            except Stuck:
                ending = self.halt = f"Stuck {{ pc: {self.pc} }}"
            if ending:
                return ending
        return "Budget"


def unescape(text):
    """The bytes of a text with escapes; no repeated texts stand there."""
    names = {"n": "\n", "t": "\t", "r": "\r"}
    one = re.sub(
        r"\\(x([0-9a-fA-F]{2})|.)",
        lambda m: chr(int(m.group(2), 16)) if m.group(2) else names.get(m.group(1), m.group(1)),
        text,
    )
    return one.encode("latin-1")


def escape(data):
    names = {10: "\\n", 92: "\\\\"}
    return "".join(names.get(byte) or (chr(byte) if 32 <= byte < 127 else f"\\x{byte:02x}") for byte in data)


def due(lines):
    """The lines that are due of a row."""
    words, parts = [], {"data": "", "zeros": "0", "entry": "0", "input": "", "room": "4096"}
    for line in lines:
        name, _, rest = line.partition(" ")
        if name == "words":
            words += [int(word, 16) for word in rest.split()]
        else:
            parts[name] = rest
    asked, put = [0, 0], bytearray()
    taken = list(unescape(parts["input"]))

    def fails(which, name):
        asked[which] += 1
        return str(asked[which] - 1) in parts.get(name, "").split()

    def source():
        return None if fails(0, "failing-inputs") else taken.pop(0) if taken else -1

    def sink(byte):
        if fails(1, "failing-puts") or len(put) == int(parts["room"]):
            return False
        put.append(byte)
        return True

    machine = Machine(words, unescape(parts["data"]) + bytes(int(parts["zeros"])), int(parts["entry"], 16))
    shown = []
    for budget in parts["run"].split():
        ending = machine.run(int(budget), source, sink)
        shown.append(f"{ending}, steps {machine.steps}, written {machine.written}")
    return shown + [f"out {escape(put)}"]


def image_lines(data):
    version = int.from_bytes(data[4:8], "little")
    assert data[:4] == b"MSA1" and version in (1, 2)
    words, size, entry, zeros = (int.from_bytes(data[at : at + 4], "little") for at in (8, 12, 16, 20))
    at = 24 if version == 2 else 20
    shown = [f"{int.from_bytes(data[k : k + 4], 'little'):08x}" for k in range(at, at + 4 * words, 4)]
    lines = ["words " + " ".join(shown[k : k + 12]) for k in range(0, words, 12)]
    if size:
        lines.append("data " + escape(data[at + 4 * words :]))
    if version == 2 and zeros:
        lines.append(f"zeros {zeros}")
    return lines + ([f"entry {entry:x}"] if entry else [])


def check(path, is_written):
    with open(path) as file:
        lines = file.read().split("\n")
    out, given, at, asked, wrong = [], [], 0, 0, 0
    while at < len(lines):
        line = lines[at]
        at += 1
        out.append(line)
        if not given and (not line or line.startswith("#")):
            continue
        given.append(line.removesuffix(" =>"))
        if not line.endswith(" =>"):
            continue
        said = []
        while at < len(lines) and lines[at].startswith("  "):
            said.append(lines[at][2:])
            at += 1
        found = due(given)
        asked += 1
        if is_written and not said:
            said = found
        elif found != said:
            wrong += 1
            print("\n".join(["differs:", *given, "  due", *said, "  found", *found]))
        out += [f"  {each}" for each in said]
        given = []
    if is_written:
        with open(path, "w") as file:
            file.write("\n".join(out))
    print(f"{asked} rows, {wrong} differ")
    return 1 if wrong else 0


def main(words):
    if words[:1] == ["--image"] and len(words) == 2:
        with open(words[1], "rb") as file:
            print("\n".join(image_lines(file.read())))
        return 0
    paths = [word for word in words if word != "--write"]
    if len(paths) > 1 or any(path.startswith("--") for path in paths):
        sys.exit(__doc__)
    return check(paths[0] if paths else FILE, "--write" in words)


if __name__ == "__main__":
    sys.exit(main(sys.argv[1:]))
