"""Runs programs over virtual registers by a model apart from the interpreter.

usage: tools/vm_model.py < FILE

FILE is `crates/back_rows/data/vm_runs.rows`. It is printed again with what the model says is due of each row, so that
nothing has changed where the rows are right. The model takes integers from Python, and memory as lists of bytes; a
pointer is an object with an offset, and in memory eight parts of itself. It knows what the rows use: of pointers only
sums, accesses and copies.
"""
import re
import sys

MASK = (1 << 64) - 1
BITS = {"s8": 8, "u8": 8, "s16": 16, "u16": 16, "s32": 32, "u32": 32, "s64": 64, "u64": 64}


class End(Exception):
    """The end of a run."""


def width(ty):
    """The bytes of an access."""
    return 8 if ty == "p64" else BITS[ty] // 8


def value(ty, word):
    """The number that a word stands for."""
    bits = BITS[ty]
    low = word & ((1 << bits) - 1)
    return low - (1 << bits) if ty[0] == "s" and low >> (bits - 1) else low


def word(ty, number):
    """The word of a number: of four bytes or fewer it has the sign of its low bits."""
    bits = BITS[ty]
    low = number & ((1 << bits) - 1)
    return (low - (1 << bits)) & MASK if bits == 32 and low >> 31 else low


def unescape(text):
    names = {"n": "\n", "t": "\t", "r": "\r"}
    text = re.sub(r"\\(x[0-9a-f]{2}|.)", lambda m: chr(int(m[1][1:], 16)) if m[1][0] == "x" and len(m[1]) == 3
                  else names.get(m[1], m[1]), text)
    return [ord(sign) for sign in text]


def escape(codes):
    return "".join({10: "\\n", 92: "\\\\"}.get(c, chr(c) if 32 <= c < 127 else f"\\x{c:02x}") for c in codes)


class Program:
    def __init__(self, lines):
        self.functions, self.globals, self.constants = {}, [], set()
        self.input, self.failing_inputs, self.failing_puts, self.turns = [], [], [], 1000
        for line in lines:
            head, _, rest = line.partition(" ")
            if head == "func":
                function = self.functions[rest] = {"objects": [], "blocks": []}
            elif head in ("params", "registers"):
                function[head] = int(rest)
            elif head == "object":
                function["objects"].append(int(rest.split()[0]))
            elif head == "global":
                size, _, kind, *text = rest.split(" ", 3)
                if kind == "constant":
                    self.constants.add(len(self.globals))
                cells = unescape(text[0]) if text else []
                self.globals.append(cells + [0] * (int(size) - len(cells)))
            elif head == "input":
                self.input = unescape(rest)
            elif head == "turns":
                self.turns = int(rest)
            elif head in ("failing-inputs", "failing-puts"):
                setattr(self, head.replace("-", "_"), [int(k) for k in rest.split()])
            elif line.endswith(":"):
                function["blocks"].append([])
            else:
                function["blocks"][-1].append((int(head), rest))


class Run:
    def __init__(self, program):
        self.program, self.memory, self.out = program, [list(cells) for cells in program.globals], []
        self.left, self.reads, self.puts, self.turns, self.steps = list(program.input), 0, 0, program.turns, 0

    def take_turn(self):
        if self.turns == 0:
            raise End(f"Budget {{ turns: {self.program.turns} }}")
        self.turns -= 1

    def arithmetic(self, op, ty, a, b):
        a, b = value(ty, a), value(ty, b)
        if op in ("div", "rem") and b == 0:
            raise End("Trapped { code: 1 }")
        quotient = abs(a) // abs(b) * (1 if (a < 0) == (b < 0) else -1) if op in ("div", "rem") else 0
        result = {"add": a + b, "sub": a - b, "mul": a * b, "div": quotient, "rem": a - quotient * b,
                  "and": a & b, "ior": a | b, "xor": a ^ b}[op]
        beyond = quotient if op == "rem" else result
        if ty[0] == "s" and value(ty, beyond) != beyond:
            raise End("Trapped { code: 3 }")
        return word(ty, result)

    def shift(self, pc, op, ty, a, count):
        if count >= BITS[ty]:
            raise End(f"Undefined {{ pc: {pc} }}")
        ty = {"asr": "s", "lsr": "u", "lsl": ty[0]}[op] + ty[1:]
        a = value(ty, a)
        return word(ty, a << count if op == "lsl" else a >> count)

    def builtin(self, name, arguments):
        if name == "putchar":
            if self.puts in self.program.failing_puts:
                raise End("WriteFault")
            self.puts += 1
            self.out.append(arguments[0] & 255)
            return arguments[0] & 255
        if name == "getchar":
            if self.reads in self.program.failing_inputs:
                raise End("InputFault")
            self.reads += 1
            return self.left.pop(0) if self.left else MASK
        if name == "abort":
            raise End("Trapped { code: 2 }")
        raise End(f"Ended {{ status: {arguments[0] & 255} }}")

    def place(self, name, own):
        return int(name[1:]) + (own if name[0] == "m" else 0)

    def cells(self, pc, pointer, plus, size, align=None, writes=False):
        """The object that a pointer goes to, and where the bytes of an access stand in it."""
        if not isinstance(pointer, tuple):
            raise End(f"Undefined {{ pc: {pc} }}")
        thing, offset = pointer
        cells, at = self.memory[thing], offset + plus
        if cells is None or at < 0 or at + size > len(cells) or writes and thing in self.program.constants:
            raise End(f"Undefined {{ pc: {pc} }}")
        if at % (align or size):
            raise End(f"Undefined {{ pc: {pc} }}")
        return cells, slice(at, at + size)

    def moved(self, pc, pointer, by):
        thing, offset = pointer
        if not 0 <= offset + by <= len(self.memory[thing]):
            raise End(f"Undefined {{ pc: {pc} }}")
        return thing, offset + by

    def load(self, pc, ty, pointer, plus):
        cells, where = self.cells(pc, pointer, plus, width(ty))
        cells = cells[where]
        if ty == "p64" and isinstance(cells[0], tuple):
            assert cells == [(cells[0][0], k) for k in range(8)]
            return cells[0][0]
        if any(not isinstance(cell, int) for cell in cells):
            raise End(f"Undefined {{ pc: {pc} }}")
        number = value(ty, int.from_bytes(bytes(cells), "little"))
        return number & MASK if ty != "u32" else word(ty, number)

    def store(self, pc, ty, pointer, plus, stored):
        size = width(ty)
        cells, where = self.cells(pc, pointer, plus, size, writes=True)
        if isinstance(stored, tuple):
            cells[where] = [(stored, k) for k in range(8)]
            return
        cells[where] = (stored & ((1 << 8 * size) - 1)).to_bytes(size, "little")

    def copy(self, pc, to, source, size, align):
        there, from_there = self.cells(pc, source, 0, size, align)
        here, to_here = self.cells(pc, to, 0, size, align, writes=True)
        here[to_here] = there[from_there]

    def call(self, name, arguments):
        function = self.program.functions[name]
        registers = dict(enumerate(arguments))
        own = len(self.memory)
        self.memory += [[None] * size for size in function["objects"]]
        block, at = 0, 0
        while True:
            if at == len(function["blocks"][block]):
                block, at = block + 1, 0
                continue
            number, text = function["blocks"][block][at]
            at += 1
            self.steps += 1
            head, _, rest = text.partition(" ")
            op, *types = head.split(".")
            names = rest.split(", ") if rest else []

            def read(k):
                if int(names[k][1:]) not in registers:
                    raise End(f"Undefined {{ pc: {number} }}")
                return registers[int(names[k][1:])]

            def write(result):
                registers[int(names[0][1:])] = result

            if op == "ldc":
                write(int(names[1]) & MASK)
            elif op == "lda":
                name, plus = names[1].split("+")
                write((self.place(name, own), int(plus)))
            elif op == "lod":
                write(self.load(number, types[0], read(1), int(names[2])))
            elif op == "str":
                self.store(number, types[0], read(0), int(names[1]), read(2))
            elif op == "mcpy":
                self.copy(number, read(0), read(1), int(names[2]), int(names[3]))
            elif op == "add" and types[0] == "p64":
                write(self.moved(number, read(1), value("s64", read(2))))
            elif op == "mov":
                write(read(1))
            elif op == "neg":
                write(self.arithmetic("sub", types[0], 0, read(1)))
            elif op == "not":
                write(word(types[0], ~value(types[0], read(1))))
            elif op in ("add", "sub", "mul", "div", "rem", "and", "ior", "xor"):
                write(self.arithmetic(op, types[0], read(1), read(2)))
            elif op in ("asr", "lsl", "lsr"):
                write(self.shift(number, op, types[0], read(1), read(2)))
            elif op == "cvt":
                write(word(types[1], value(types[0], read(1))))
            elif op in ("seq", "sne", "sl", "sle"):
                a, b = value(types[0], read(1)), value(types[0], read(2))
                write(int({"seq": a == b, "sne": a != b, "sl": a < b, "sle": a <= b}[op]))
            elif op in ("btrue", "bfalse"):
                if (read(0) != 0) == (op == "btrue"):
                    block, at = int(names[1][1:]), 0
            elif op == "jmp":
                block, at = int(names[0][1:]), 0
            elif op == "cal":
                self.take_turn()
                given = [read(k) for k in range(2, len(names))]
                callee = self.call if names[1] in self.program.functions else self.builtin
                answer = callee(names[1], given)
                if names[0] != "-":
                    write(answer)
            elif op == "ret":
                answer = read(0) if names else None
                self.memory[own:own + len(function["objects"])] = [None] * len(function["objects"])
                return answer
            elif op == "mrk":
                self.take_turn()

    def ending(self):
        try:
            return f"Ended {{ status: {self.call('main', []) & 255} }}"
        except End as end:
            return str(end)


def main():
    given, is_due = [], False
    for line in sys.stdin.read().splitlines():
        if is_due and line.startswith("  "):
            continue
        is_due = False
        if not given and (not line or line.startswith("#")):
            print(line)
            continue
        print(line)
        given.append(line.removesuffix(" =>"))
        if line.endswith(" =>"):
            run = Run(Program(given))
            print(f"  {run.ending()}")
            if run.out:
                print(f"  out {escape(run.out)}")
            given, is_due = [], True


if __name__ == "__main__":
    main()
