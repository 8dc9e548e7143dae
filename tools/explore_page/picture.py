"""The picture of an allocation: instructions downwards, registers and slots across, and where each temporary is."""
import re
from html import escape

ROW, COLUMN, HEAD = 15, 22, 34
WRITES_FIRST = ("lda", "ldah", "ldbu", "ldwu", "ldl", "ldq")
WRITES_NONE = ("stb", "stw", "stl", "stq", "beq", "bne", "blt", "ble", "bgt", "bge", "blbc", "blbs", "br", "bsr", "ret", "mrk",
               "call_pal", "jmp", "jsr")
# the registers in the order in which allocators give them
ORDER = [*range(1, 9), *range(22, 26), 0, *range(16, 22), *range(9, 16)]
TRANSFER = re.compile(r"(store|load|move) t([0-9]+) \$([0-9]+)(?: \$([0-9]+))?")
PLACE = re.compile(r"t([0-9]+)=([$s])([0-9]+)")


def operands(text):
    """The word of an instruction, and its operands with registers inside brackets apart."""
    word, _, rest = text.partition(" ")
    return word, re.findall(r"t[0-9]+|\$[0-9]+|[^\s,()]+", rest)


def uses(text):
    """The places among the operands of what an instruction reads, and that of what it writes, or None."""
    word, them = operands(text)
    places = [k for k, it in enumerate(them) if re.fullmatch(r"t[0-9]+|\$[0-9]+", it)]
    if word in WRITES_NONE or word.startswith("__"):
        return places, None
    if word in WRITES_FIRST:
        return [k for k in places if k != 0], 0 if 0 in places else None
    last = len(them) - 1
    return [k for k in places if k != last], last if last in places else None


def temporary(operand):
    return int(operand[1:]) if operand.startswith("t") else None


class Row:
    """A line of the picture."""

    def __init__(self, kind, block, text, number=None):
        self.kind, self.block, self.text, self.number = kind, block, text, number


def rows_of(function, successors):
    """The lines of an allocation, with the transfers of an edge where its code stands."""
    at_end, at_top = {}, {}
    for first, then, code in function.edges:
        if code:
            where = at_end if len(successors.get(first, [])) == 1 else at_top
            where.setdefault(first if where is at_end else then, []).append((first, then, code))
    rows = []

    def put_edges(edges, block):
        for first, then, code in edges:
            for _, text in code:
                rows.append(Row("edge", block, f"{text}   B{first} \u2192 B{then}"))

    for block in function.alloc:
        rows.append(Row("top", block.number, f"B{block.number}  {block.top}"))
        put_edges(at_top.get(block.number, []), block.number)
        for number, text in block.lines:
            rows.append(Row("transfer" if number is None else "instruction", block.number, text, number))
        put_edges(at_end.get(block.number, []), block.number)
    return rows


def live_parts(function):
    """The parts of each temporary's lifetime by points, 2n for a read and 2n + 1 for a write; computed where not given."""
    if not function.select:
        return {}
    first = next((n for block in function.select for n, _ in block.lines), 0)
    if function.live:
        return {t: [(a, b) for a, b in parts] for t, parts in function.live.items()}
    from .texts import successors
    follow = successors(function.select)
    lines = {}
    for block in function.select:
        lines[block.number] = []
        for number, text in block.lines:
            _, them = operands(text)
            read, written = uses(text)
            lines[block.number].append((number - first, {temporary(them[k]) for k in read} - {None},
                                        temporary(them[written]) if written is not None else None))
    live_in = {block: set() for block in lines}
    changed = True
    while changed:
        changed = False
        for block in reversed(list(lines)):
            live = set().union(*(live_in[it] for it in follow[block] if it in live_in), set())
            for _, read, written in reversed(lines[block]):
                live = (live - {written}) | read
            if live != live_in[block]:
                live_in[block], changed = live, True
    points = {}
    for block in lines:
        live = set().union(*(live_in[it] for it in follow[block] if it in live_in), set())
        for number, read, written in reversed(lines[block]):
            # a write that nothing reads is a part of one point
            for t in live | ({written} - {None}):
                points.setdefault(t, set()).add(2 * number + 1)
            live = (live - {written}) | read
            for t in live:
                points.setdefault(t, set()).add(2 * number)
    found = {}
    for t, them in points.items():
        parts = []
        for point in sorted(them):
            if parts and parts[-1][1] == point - 1:
                parts[-1][1] = point
            else:
                parts.append([point, point])
        found[t] = [tuple(part) for part in parts]
    return found


class Picture:
    """What is drawn, row by row."""

    def __init__(self, function):
        from .texts import successors
        self.function = function
        self.rows = rows_of(function, successors(function.select) if function.select else {})
        self.parts = live_parts(function)
        self.first = next((n for block in function.alloc for n, _ in block.lines if n is not None), 0)
        self.row_of = {row.number - self.first: k for k, row in enumerate(self.rows) if row.number is not None}
        self.selected = {n: text for block in function.select for n, text in block.lines}
        # bars: register, temporary, first row, last row; marks: kind, row, temporary, register, to
        self.bars, self.marks, self.fixed = [], [], []
        self.walk()
        self.read_journal()
        named = {t for _, t, _, _ in self.bars} | set(self.parts) | {mark[2] for mark in self.marks}
        self.temporaries = sorted(named)
        held = {r for r, *_ in self.bars} | {r for _, r in self.fixed}
        self.registers = [r for r in ORDER if r in held] + sorted(held - set(ORDER) - {30, 31})

    def walk(self):
        """Follows what stands in the registers."""
        now = {}

        def close(register):
            if register in now:
                t, begin, last = now.pop(register)
                self.bars.append((register, t, begin, last))

        def use(register, k):
            if register in now:
                now[register][2] = k

        bottoms = {block.number: block.bottom for block in self.function.alloc}
        for k, row in enumerate(self.rows):
            if row.kind == "top":
                for register in list(now):
                    close(register)
                for t, where, number in PLACE.findall(row.text):
                    if where == "$":
                        now[int(number)] = [int(t), k, k]
            match = TRANSFER.match(row.text)
            if match and row.kind != "instruction":
                kind, t, register, to = match.group(1), int(match.group(2)), int(match.group(3)), match.group(4)
                self.marks.append((kind, k, t, register, int(to) if to else None))
                if kind == "store":
                    if register not in now:
                        now[register] = [t, k, k]
                    use(register, k)
                else:
                    if to:
                        use(register, k)
                    target = int(to) if to else register
                    close(target)
                    now[target] = [t, k, k]
            elif row.kind == "instruction":
                self.step(k, row, now, close, use)
            last = k + 1 == len(self.rows) or self.rows[k + 1].kind == "top"
            if last:
                for t, where, number in PLACE.findall(bottoms.get(row.block, "")):
                    if where == "$":
                        use(int(number), k)
        for register in list(now):
            close(register)

    def step(self, k, row, now, close, use):
        """What an instruction reads and writes: temporaries by the text of `select`, registers by that of `alloc`."""
        before = self.selected.get(row.number)
        if before is None:
            return
        _, named = operands(before)
        _, stated = operands(row.text)
        read, written = uses(before)
        for place in read + ([written] if written is not None else []):
            if place >= len(stated) or not stated[place].startswith("$"):
                continue
            register, t = int(stated[place][1:]), temporary(named[place])
            if register in (30, 31):
                continue
            if t is None:
                self.fixed.append((k, register))
                if place == written:
                    close(register)
            elif place == written:
                close(register)
                now[register] = [t, k, k]
            else:
                if register not in now:
                    now[register] = [t, k, k]
                use(register, k)

    def read_journal(self):
        """The marks of a journal: where a temporary gets a register or leaves one."""
        k = 0
        for line in self.function.journal:
            match = re.fullmatch(r"visit ([0-9]+)", line)
            if match:
                k = self.row_of.get(int(match.group(1)), k)
            match = re.fullmatch(r"(assign|evict) t([0-9]+) \$([0-9]+)", line)
            if match:
                kind, t, register = match.group(1), int(match.group(2)), int(match.group(3))
                self.marks.append((kind, k, t, register, None))
                if kind == "evict":
                    self.hold(register, t, k)

    def hold(self, register, t, k):
        """A temporary stays in its register until it is evicted, also where nothing reads it there."""
        last = max((bar for bar in self.bars if bar[0] == register and bar[2] <= k), key=lambda bar: bar[2], default=None)
        if last and last[1] == t and last[3] < k:
            self.bars[self.bars.index(last)] = (register, t, last[2], k)

    def y(self, point):
        """The height of a point of the lifetime."""
        row = self.row_of.get(point // 2, 0)
        return row * ROW + ROW * (0.2 if point % 2 == 0 else 0.8)


def hue(t):
    return int(t * 137.508) % 360


def heads(picture, x_of_register, x_of_slot, width):
    """The names of the columns."""
    out = [f'<svg class="heads" width="{width}" height="{HEAD}" aria-hidden="true">']
    out.append('<text class="kind" x="4" y="12">registers</text>')
    out.append(f'<text class="kind" x="{min(x_of_slot.values(), default=0) - COLUMN / 2 + 4}" y="12">slots of temporaries</text>')
    for register, x in x_of_register.items():
        out.append(f'<text x="{x}" y="28" text-anchor="middle">${register}</text>')
    for t, x in x_of_slot.items():
        out.append(f'<text class="slot" data-t="{t}" style="--h:{hue(t)}" x="{x}" y="28" text-anchor="middle">t{t}</text>')
    return "".join(out) + "</svg>"


def lifetimes(picture, x_of_slot):
    """A bar for each part of a lifetime, and a dotted line through its holes."""
    out = []
    for t in picture.temporaries:
        parts = picture.parts.get(t, [])
        if not parts:
            continue
        x, style = x_of_slot[t], f'data-t="{t}" style="--h:{hue(t)}"'
        top, bottom = picture.y(parts[0][0]), picture.y(parts[-1][1])
        if len(parts) > 1:
            out.append(f'<line class="hole" {style} x1="{x}" x2="{x}" y1="{top:.1f}" y2="{bottom:.1f}"/>')
        for a, b in parts:
            y0, y1 = picture.y(a), picture.y(b)
            out.append(f'<rect class="life" {style} x="{x - 6}" width="12" y="{y0:.1f}" height="{max(3, y1 - y0):.1f}" rx="2">'
                       f"<title>t{t}, points {a} to {b}</title></rect>")
    return out


def events(picture, x_of_register, x_of_slot):
    """Stores, loads, moves and evictions."""
    out = []
    for kind, k, t, register, to in picture.marks:
        if register not in x_of_register:
            continue
        x, y, style = x_of_register[register], k * ROW + ROW / 2, f'data-t="{t}" style="--h:{hue(t)}"'
        if kind in ("store", "load"):
            slot = x_of_slot[t]
            tip = f"M{slot - 7} {y - 4}l6 4l-6 4z" if kind == "store" else f"M{x + 7} {y - 4}l-6 4l6 4z"
            out.append(f'<g class="{kind}" {style}><line x1="{x + 5}" x2="{slot - 5}" y1="{y}" y2="{y}"/><path d="{tip}"/>'
                       f"<title>{kind} t{t} ${register}</title></g>")
        elif kind == "move" and to in x_of_register:
            other = x_of_register[to]
            turn = 1 if other > x else -1
            out.append(f'<g class="move" {style}><line x1="{x}" x2="{other - 6 * turn}" y1="{y}" y2="{y}"/>'
                       f'<path d="M{other - 7 * turn} {y - 4}l{6 * turn} 4l{-6 * turn} 4z"/><title>move t{t} ${register} ${to}</title></g>')
        elif kind == "evict":
            out.append(f'<path class="evict" {style} d="M{x - 5} {y - 5}l10 10m0 -10l-10 10"><title>evict t{t} ${register}</title></path>')
        elif kind == "assign":
            out.append(f'<circle class="assign" {style} cx="{x}" cy="{y}" r="4"><title>assign t{t} ${register}</title></circle>')
    return out


def draw(function, key_of, colour):
    """The picture as HTML. `key_of` gives the key of a block, and `colour` the HTML of an instruction's text."""
    if not function.alloc:
        return ""
    picture = Picture(function)
    if not picture.rows:
        return ""
    x_of_register = {r: 14 + COLUMN * k for k, r in enumerate(picture.registers)}
    start = 14 + COLUMN * len(picture.registers) + 14
    x_of_slot = {t: start + COLUMN * k for k, t in enumerate(picture.temporaries)}
    width, height = start + max(COLUMN * len(picture.temporaries), 120), ROW * len(picture.rows)
    out = [f'<svg class="bars" width="{width}" height="{height}" role="img" aria-label="allocation of {escape(function.name)}">',
           f'<rect class="band" x="0" width="{width}" height="{ROW}" y="-{ROW}"/>']
    for k, row in enumerate(picture.rows):
        if row.kind == "top":
            out.append(f'<rect class="blockhead" x="0" y="{k * ROW}" width="{width}" height="{ROW}" data-b="{key_of(row.block)}"/>')
    for x in x_of_register.values():
        out.append(f'<line class="rail" x1="{x}" x2="{x}" y1="0" y2="{height}"/>')
    out.append(f'<line class="border" x1="{start - COLUMN / 2 - 3}" x2="{start - COLUMN / 2 - 3}" y1="0" y2="{height}"/>')
    out += lifetimes(picture, x_of_slot)
    for k, register in picture.fixed:
        out.append(f'<rect class="fixed" x="{x_of_register[register] - 4}" y="{k * ROW + 4}" width="8" height="{ROW - 8}"/>')
    for register, t, a, b in picture.bars:
        out.append(f'<rect class="bar" data-t="{t}" style="--h:{hue(t)}" x="{x_of_register[register] - 6}" width="12" '
                   f'y="{a * ROW + 2}" height="{max(1, b - a + 1) * ROW - 4}" rx="2"><title>t{t} in ${register}</title></rect>')
    out += events(picture, x_of_register, x_of_slot)
    out.append("</svg>")
    lines = []
    for k, row in enumerate(picture.rows):
        number = "" if row.number is None else f' data-n="{row.number}"'
        shown = f'<i class="n">{row.number}</i>' if row.number is not None else ""
        lines.append(f'<span class="row {row.kind}" data-b="{key_of(row.block)}" data-row="{k}"{number}>{shown}{colour(row.text)}</span>')
    return (f'<div class="chart" data-row-height="{ROW}"><div class="corner">instructions</div>'
            f"{heads(picture, x_of_register, x_of_slot, width)}"
            f'<div class="rows">{"".join(lines)}</div>{"".join(out)}</div>')
