#!/usr/bin/env python3
"""A model of the allocator `binpack` apart from its code: what a scan with second chances gives for the code over
temporaries that the compiler prints, and the journal of an allocation by the replay of it.

usage: binpack_model.py SELECT                 the allocations that are due for a text of `print --pass select`, but for
                                               the transfers of edges, of which only the heads stand there
       binpack_model.py SELECT ALLOC           fails where a text of `print --pass alloc` is another one, or where what it
                                               does on an edge does not lead from the one map to the other
       binpack_model.py --journal SELECT ALLOC the journals that are due for these allocations, by whatever allocator
       binpack_model.py --rows ROWS            a file of rows of allocations and journals, with what is due made anew

Instruction n of a function reads at point 2n and writes at point 2n + 1 (docs/formats.md). The rules are those of
`binpack_blocks` and `binpack_scan` (their README.md), and those of `alloc_rules` (`specs/Visits.antt` for the register
that is taken, `specs/Journal.antt`).
"""
import re
import sys
from bisect import bisect_right

# the registers in the order in which they are given, and those that a call ends
STATED = [*range(1, 9), *range(22, 26), 0, *range(16, 22), *range(9, 16)]
ENDED = {*range(0, 9), *range(16, 30)}
NEVER = float("inf")
LOADS = {"lda", "ldah", "ldbu", "ldwu", "ldl", "ldq"}
STORES = {"stb", "stw", "stl", "stq"}
BRANCHES = {"beq", "bne", "blt", "ble", "bge", "bgt", "blbc", "blbs"}
NAME = re.compile(r"\bt\d+")


class Insn:
    """An instruction: what it reads and writes, temporaries and fixed registers, and where it goes."""

    def __init__(self, text, value):
        self.text, self.word = text, text.split(" ")[0]
        self.reads, self.writes, self.fixed_reads, self.fixed_writes, self.ended = [], [], [], [], set()
        self.targets, self.flows_on = [int(b) for b in re.findall(r"B(\d+)", text)], True
        # which occurrence of a temporary in the text is the one that is written
        self.written_at = None
        names = NAME.findall(text)
        parts = [part.strip() for part in text[len(self.word):].split(",")]
        if self.word in LOADS:
            self.first_written(names, parts[0])
        elif self.word in STORES or self.word in BRANCHES:
            self.reads = [int(name[1:]) for name in names]
        elif self.word == "br":
            self.flows_on = False
        elif self.word == "bsr" and parts[0] == "$26":
            self.fixed_reads, self.fixed_writes, self.ended = [int(p[1:]) for p in parts[2:]], [0], ENDED
        elif self.word == "bsr":
            self.fixed_reads, self.fixed_writes, self.ended = [24, 25], [27], {23, 27, 28}
        elif self.word == "call_pal":
            self.serve(text, value)
        elif self.word == "ret":
            self.fixed_reads, self.flows_on = ([0] if "$0" in text else []), False
        elif self.word != "mrk":
            self.last_written(names, parts)

    def first_written(self, names, first):
        """A load or an address."""
        if first.startswith("t"):
            self.writes, self.written_at, names = [int(first[1:])], 0, names[1:]
        else:
            self.fixed_writes = [int(first[1:])]
        self.reads = [int(name[1:]) for name in names]

    def last_written(self, names, parts):
        """An operation, or a copy from or to a fixed register."""
        if parts[-1].startswith("t"):
            self.writes, self.written_at, names = [int(parts[-1][1:])], len(names) - 1, names[:-1]
        else:
            self.fixed_writes = [int(parts[-1][1:])]
        self.reads = [int(name[1:]) for name in names]
        self.fixed_reads = [int(p[1:]) for p in parts[:-1] if p.startswith("$") and p != "$31"]

    def serve(self, text, value):
        """A service, by the number that stands in register 0, or a trap."""
        if text == "call_pal 170":
            self.fixed_reads = [16]
        elif value == 3:
            self.fixed_reads, self.fixed_writes = [0], [0]
        else:
            self.fixed_reads = [0, 16]

    def takes_away(self, r):
        return r in self.fixed_writes or r in self.ended

    def fixes(self, r):
        return r in self.fixed_reads or self.takes_away(r)

    def named(self):
        return self.reads + self.writes

    def with_registers(self, registers):
        """The text with the registers of what it reads and then of what it writes."""
        left = list(registers)
        written = left.pop() if self.writes else None
        at = -1

        def stated(found):
            nonlocal at
            at += 1
            return f"${written if at == self.written_at else left.pop(0)}"
        return NAME.sub(stated, self.text)


class Function:
    """A function over temporaries, with where each of them is wanted."""

    def __init__(self, name, first):
        self.name, self.first, self.blocks = name, first, []

    def settle(self):
        self.starts, count = [], 0
        for block in self.blocks:
            self.starts.append(count)
            count += len(block)
        self.insns = [insn for block in self.blocks for insn in block]
        self.temps = 1 + max((t for insn in self.insns for t in insn.named()), default=-1)
        self.live()
        self.present = [self.points(t) for t in range(self.temps)]
        self.fixed = {r: [2 * n for n, insn in enumerate(self.insns) if insn.fixes(r)] for r in STATED}

    def successors(self, block):
        insns = self.blocks[block]
        found = list(insns[-1].targets) if insns else []
        return found + ([block + 1] if not insns or insns[-1].flows_on else [])

    def live(self):
        """What is live before each instruction, and at the end of its block, as a list for each block."""
        self.live_at = [[set() for _ in range(len(block) + 1)] for block in self.blocks]
        changed = True
        while changed:
            changed = False
            for b in reversed(range(len(self.blocks))):
                rows = self.live_at[b]
                last = set().union(*(self.live_at[s][0] for s in self.successors(b)))
                changed = changed or last != rows[-1]
                rows[-1] = last
                for at in reversed(range(len(self.blocks[b]))):
                    insn = self.blocks[b][at]
                    rows[at] = (rows[at + 1] - set(insn.writes)) | set(insn.reads)

    def points(self, t):
        """The points at which a temporary is wanted."""
        found = set()
        for b, block in enumerate(self.blocks):
            for at, insn in enumerate(block):
                n = self.starts[b] + at
                if t in insn.reads or t in self.live_at[b][at]:
                    found.add(2 * n)
                if t in insn.writes or t in self.live_at[b][at + 1]:
                    found.add(2 * n + 1)
        return found

    def wanted(self, t, point):
        return point in self.present[t]

    def part_end(self, t, point):
        while point + 1 in self.present[t]:
            point += 1
        return point

    def next_presence(self, t, point):
        return min((p for p in self.present[t] if p > point and p - 1 not in self.present[t]), default=NEVER)

    def next_use(self, r, point):
        """The next point at which an instruction names a register as fixed or ends it."""
        points = self.fixed[r]
        at = bisect_right(points, point)
        return points[at] if at < len(points) else NEVER

    def next_reference(self, t, point):
        after = (p for n, insn in enumerate(self.insns) for p, named in ((2 * n, insn.reads), (2 * n + 1, insn.writes))
                 if t in named and p > point)
        return min(after, default=NEVER)


def functions_of(lines):
    """The functions of a text of `select`."""
    found, value = [], None
    for line in lines:
        if line.startswith("func "):
            found.append(Function(line[5:], sum(len(b) for f in found for b in f.blocks)))
        elif line.startswith("B"):
            found[-1].blocks.append([])
        else:
            insn = Insn(line.split(" ", 1)[1], value)
            if insn.text.startswith("lda $0, "):
                value = int(insn.text[8:].split("(")[0])
            found[-1].blocks[-1].append(insn)
    for function in found:
        function.settle()
    return found


class Scan:
    """One scan over a function. What stands in a register is its temporary, whether the slot lacks it, and nothing else."""

    def __init__(self, function):
        self.f, self.bins, self.tops, self.bottoms, self.rows = function, {}, [], [], []
        for b, block in enumerate(function.blocks):
            live = function.live_at[b][0]
            self.tops.append([(t, r) for r, (t, _) in sorted(self.bins.items()) if t in live])
            for at, insn in enumerate(block):
                self.visit(insn, function.starts[b] + at, self.standing(block[at + 1:]))
            self.bottoms.append([(t, r) for r, (t, _) in sorted(self.bins.items())])

    @staticmethod
    def standing(behind):
        """The registers in which fixed values stand behind an instruction."""
        found = set()
        for insn in reversed(behind):
            found = {r for r in found if not insn.takes_away(r)} | set(insn.fixed_reads)
        return found

    def register_of(self, t):
        return next((r for r, (u, _) in sorted(self.bins.items()) if u == t), None)

    def lives_in(self, r, point):
        return r in self.bins and self.f.wanted(self.bins[r][0], point)

    def is_open(self, r):
        return not self.insn.fixes(r) and r not in self.fixed

    def is_free(self, r, point):
        return self.is_open(r) and not self.lives_in(r, point)

    def span_end(self, r, point):
        """Where the span of a free register ends: at a fixed use, or where what it has comes out of its hole."""
        back = self.f.next_presence(self.bins[r][0], point) if r in self.bins else NEVER
        return min(self.f.next_use(r, point), back)

    def best(self, t, point):
        """The free register that is best for the part of a temporary at a point, and whether it is free up to its end."""
        last = self.f.part_end(t, point)
        ends = [(self.span_end(r, point), order, r) for order, r in enumerate(STATED) if self.is_free(r, point)]
        beyond = [free for free in ends if free[0] > last]
        if beyond:
            return min(beyond)[2], True
        return (max(ends, key=lambda free: (free[0], -free[1]))[2], False) if ends else (None, False)

    def choose(self, t, point):
        free, _ = self.best(t, point)
        if free is not None:
            return free
        may = [r for r in sorted(self.bins) if self.is_open(r) and self.bins[r][0] not in self.insn.named()]
        if may:
            return max(may, key=lambda r: (self.f.next_reference(self.bins[r][0], point), -self.bins[r][0]))
        return next(r for r in range(1, 5) if r not in self.bins or self.bins[r][0] not in self.insn.named())

    def save(self, r, live):
        if r in self.bins and live and self.bins[r][1]:
            self.made.append(f"store t{self.bins[r][0]} ${r}")
            self.bins[r] = (self.bins[r][0], False)

    def refuge(self, t, point):
        free, is_beyond = self.best(t, point)
        return free if is_beyond else None

    def visit(self, insn, n, standing):
        self.insn, self.fixed, self.made, registers = insn, standing, [], []
        for r in range(26):
            if not insn.takes_away(r) or r not in self.bins:
                continue
            t = self.bins[r][0]
            to = self.refuge(t, 2 * n) if self.f.wanted(t, 2 * n) else None
            if to is None:
                self.save(r, self.f.wanted(t, 2 * n + 1))
            else:
                self.made.append(f"move t{t} ${r} ${to}")
                self.bins[to] = self.bins.pop(r)
        for t in insn.reads:
            r = self.register_of(t)
            if r is None:
                r = self.choose(t, 2 * n)
                self.save(r, self.lives_in(r, 2 * n))
                self.made.append(f"load t{t} ${r}")
                self.bins[r] = (t, False)
            registers.append(r)
        for t in insn.writes:
            r = self.register_of(t)
            if r is None:
                r = self.choose(t, 2 * n + 1)
                self.save(r, self.lives_in(r, 2 * n + 1))
            self.bins[r] = (t, True)
            registers.append(r)
        for r in range(26):
            if insn.takes_away(r):
                self.bins.pop(r, None)
        self.rows.append((self.made, insn.with_registers(registers)))

    def lines(self):
        """The text of the allocation, with the heads of edges."""
        out = [f"func {self.f.name}"]
        for b, block in enumerate(self.f.blocks):
            out.append(f"B{b} top" + "".join(f" t{t}=${r}" for t, r in self.tops[b]))
            for at in range(len(block)):
                n = self.f.starts[b] + at
                out += self.rows[n][0] + [f"{self.f.first + n} {self.rows[n][1]}"]
            out.append(f"B{b} bottom" + "".join(f" t{t}=${r}" for t, r in self.bottoms[b]))
        return out + [f"edge B{b} B{s}" for b in range(len(self.f.blocks)) for s in sorted(self.f.successors(b))]

    def edge_code(self, b, s):
        """The code of an edge: what is live behind it is stored, what has two registers is moved, and the rest is loaded."""
        register_at_bottom = dict(self.bottoms[b])
        code = [f"store t{t} ${r}" for t, r in self.bottoms[b] if t in self.f.live_at[s][0]]
        holders = {r: t for t, r in self.bottoms[b]}
        for source, to in in_turn([(register_at_bottom[t], r) for t, r in self.tops[s] if t in register_at_bottom]):
            code.append(f"move t{holders[source]} ${source} ${to}")
            holders[to] = holders[source]
        return code + [f"load t{t} ${r}" for t, r in self.tops[s] if t not in register_at_bottom]

    def whole_lines(self):
        """The text of the allocation, with the code of edges."""
        out = []
        for line in self.lines():
            out.append(line)
            if line.startswith("edge "):
                out += self.edge_code(*(int(word[1:]) for word in line.split(" ")[1:]))
        return out

    def edge_fault(self, b, s, code):
        """What is wrong with the code of an edge, or None."""
        place = {r: t for t, r in self.bottoms[b]}
        slots = set(self.f.live_at[s][0]) - set(place.values())
        for line in code:
            word, t, *registers = line.split(" ")
            t, registers = int(t[1:]), [int(r[1:]) for r in registers]
            if word == "load":
                if t not in slots:
                    return f"t{t} is loaded, and its slot does not hold it"
                place[registers[0]] = t
            elif place.get(registers[0]) != t:
                return f"t{t} does not stand in ${registers[0]}"
            elif word == "store":
                slots.add(t)
            else:
                place[registers[1]] = t
        top = {t: r for t, r in self.tops[s]}
        for t in self.f.live_at[s][0]:
            if t in top and place.get(top[t]) != t:
                return f"t{t} does not stand in ${top[t]}"
            if t not in top and t not in slots:
                return f"t{t} is not in its slot"
        return None


def in_turn(moves, scratch=28):
    """Moves that are to happen at once, one after the other, as `par_move` makes them."""
    sources, made = {to: source for source, to in moves if source != to}, []

    def release(to):
        while to in sources and to not in sources.values():
            made.append((sources[to], to))
            to = sources.pop(to)
    for to in range(32):
        release(to)
    for first in sorted(sources):
        if first in sources:
            made.append((first, scratch))
            for to, source in sources.items():
                sources[to] = scratch if source == first else source
            release(first)
    return made


def journal(function, lines):
    """The journal of an allocation, by the replay of it."""
    tops, rows, made = [], [], []
    for line in lines:
        if line.startswith("edge "):
            break
        head = re.match(r"B\d+ (top|bottom)(.*)", line)
        if head:
            if head[1] == "top":
                named = re.findall(r"t(\d+)=\$(\d+)", head[2])
                tops.append({int(t): int(r) for t, r in named})
        elif line[0].isdigit():
            rows.append((made, line.split(" ", 1)[1]))
            made = []
        else:
            made.append(line)
    out, homes = [f"func {function.name}"], {}

    def come(r, t):
        for u in [u for u, q in homes.items() if q == r]:
            del homes[u]
        homes[t] = r
    for b, block in enumerate(function.blocks):
        for t in function.live_at[b][0]:
            homes.pop(t, None)
            if t in tops[b]:
                homes[t] = tops[b][t]
        for at, insn in enumerate(block):
            n = function.starts[b] + at
            transfers, text = rows[n]
            before = dict(homes)
            for line in transfers:
                word, t, *registers = line.split(" ")
                if word != "store":
                    come(int(registers[-1][1:]), int(t[1:]))
            for t in [t for t, r in homes.items() if insn.takes_away(r)]:
                del homes[t]
            left = dict(homes)
            written = re.findall(r"\$\d+", text)[insn.written_at if insn.word in LOADS else -1] if insn.writes else None
            for t in insn.writes:
                come(int(written[1:]), t)
            out.append(f"visit {n}")
            for t in range(function.temps):
                if t in before and t not in left and covered(function, t, 2 * n):
                    out.append(f"evict t{t} ${before[t]}")
                if t in left and t not in homes and covered(function, t, 2 * n + 1):
                    out.append(f"evict t{t} ${left[t]}")
            out += transfers
            out += ["assign " + line[5:] for line in transfers if line.startswith("load ")]
            for t in insn.writes:
                if left.get(t) != int(written[1:]):
                    out.append(f"assign t{t} {written}")
            out += [f"write t{t} {written}" for t in insn.writes]
    return out


def covered(function, t, point):
    """The lifetime of a temporary, from its first to its last point, covers a point."""
    points = function.present[t]
    return bool(points) and min(points) <= point <= max(points)


def by_function(lines):
    found = []
    for line in lines:
        if line.startswith("func "):
            found.append([])
        else:
            found[-1].append(line)
    return found


def compare(function, lines):
    """What is wrong with the allocation of a function, or None."""
    scan = Scan(function)
    due, edges, edge = scan.lines()[1:], {}, None
    heads = []
    for line in lines:
        if line.startswith("edge "):
            edge = (line, len(heads))
            edges[edge] = []
            heads.append(line)
        elif edge:
            edges[edge].append(line)
        else:
            heads.append(line)
    for number, (wanted, came) in enumerate(zip(due + ["nothing"], heads + ["nothing"])):
        if wanted != came:
            return f"line {number + 2} of {function.name}: {came}, and due is {wanted}"
    for (head, _), code in edges.items():
        b, s = (int(word[1:]) for word in head.split(" ")[1:])
        fault = scan.edge_fault(b, s, code)
        if fault:
            return f"{head} of {function.name}: {fault}"
    return None


def due_for_row(given):
    """The allocation of each function of a row, and then its journal, where instructions are counted within functions."""
    functions = functions_of([line for line in given if not line.startswith(("params ", "temps "))])
    for function in functions:
        function.first = 0
        lines = Scan(function).whole_lines()
        yield from lines + journal(function, lines[1:])


def rows_anew(lines):
    """A file of rows, each with what is due for it."""
    given = []
    for line in lines:
        if line.startswith("  "):
            continue
        yield line
        given = [] if line.startswith("#") or not line else given + [line.removesuffix(" =>")]
        if line.endswith(" =>"):
            yield from ("  " + due for due in due_for_row(given))


def main():
    words = [word for word in sys.argv[1:] if not word.startswith("--")]
    if len(words) not in (1, 2):
        sys.exit(__doc__)
    texts = [open(word).read().splitlines() for word in words]
    if "--rows" in sys.argv:
        print("\n".join(rows_anew(texts[0])))
        return
    functions = functions_of(texts[0])
    if len(words) == 1:
        for function in functions:
            print("\n".join(Scan(function).lines()))
        return
    for function, lines in zip(functions, by_function(texts[1])):
        if "--journal" in sys.argv:
            print("\n".join(journal(function, lines)))
        elif fault := compare(function, lines):
            sys.exit(fault)


if __name__ == "__main__":
    main()
