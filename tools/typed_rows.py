#!/usr/bin/env python3
"""Makes rows of typed units: `typed_rows.py typed < FILE`, `typed_rows.py rewritten < FILE` or `typed_rows.py measures < FILE`.

Each line of the file is a text without faults, with the escapes of `docs/rows.md`, or the line of a row that gives one;
what was due of it is left out, and lines that are empty or begin with `#` are handed through. What is printed are the
rows of `crates/front_rows/data`. What a text is comes from `typed_model.py`, and what the rules make of it from
`rewritten_model.py`; its weight, its data size and its text are computed here from `docs/formats.md`.
"""
import re
import sys
from rewritten_model import rewritten_statement
from typed_model import Unit, shown


class Measured(Unit):
    """A unit with its weight, its data size and its lines."""

    # ---- weights

    def copy_weight(self, ty):
        return -(-self.size(ty) // 8) if ty[0] == 'struct' else 0

    def weigh(self, e):
        own = len(e.parts) - 1 if e.word == ',' else 1
        if e.word == '=':
            own += self.copy_weight(e.ty)
        return own + sum(self.weigh(p) for p in e.parts)

    def weigh_all(self, found):
        return sum(self.weigh_one(s) for s in found)

    def weigh_one(self, s):
        part = lambda e: 0 if e is None else self.weigh(e)
        if s[0] == 'local':
            return 1 + (0 if s[2] is None else self.copy_weight(s[2].ty) + self.weigh(s[2]))
        if s[0] == 'block':
            return 1 + self.weigh_all(s[1])
        if s[0] == 'if':
            return 1 + part(s[1]) + self.weigh_all(s[2]) + self.weigh_all(s[3] or [])
        if s[0] == 'while':
            return 1 + part(s[1]) + self.weigh_all(s[2])
        if s[0] == 'do':
            return 1 + self.weigh_all(s[1]) + part(s[2])
        if s[0] == 'for':
            first = self.weigh_all(s[1]) if isinstance(s[1], list) else part(s[1])
            return 1 + first + part(s[2]) + part(s[3]) + self.weigh_all(s[4])
        if s[0] == 'switch':
            return 1 + part(s[1]) + sum((0 if v is None else 1) + self.weigh_all(b) for v, b in s[2])
        return 1 + (part(s[1]) if len(s) > 1 else 0)

    # ---- what is shown

    def rewrite(self):
        for name, (ty, held, body) in self.bodies.items():
            self.bodies[name] = (ty, held, [rewritten_statement(s, held) for s in body])

    def finish(self):
        self.objects = [o for o in self.objects if o['defined']]
        self.names = {o['name']: k for k, o in enumerate(self.objects)}
        self.order = {name: k for k, name in enumerate(n for n in self.functions if n in self.bodies)}
        self.base = len(self.objects)
        rows, end = [], 0
        for o in self.objects:
            rows.append(['object', o['name'], self.size(o['ty']), self.align(o['ty']), o['cells']])
        for t in self.texts:
            rows.append(['constant', '-', len(t), 1, t])
        for row in rows:
            place = -(-end // 8) * 8
            end = place + row[2]
            row.append(place)
        self.rows, greatest = rows, 0
        self.rooms = {}
        for name in self.order:
            _, held, _ = self.bodies[name]
            self.rooms[name] = sum(-(-self.size(ty) // 8) * 8 for ty, memory in held if memory)
            greatest = max(greatest, self.rooms[name])
        self.data = max(end, greatest)
        self.weights = {name: len(self.bodies[name][0][2]) + 1 + self.weigh_all(self.bodies[name][2]) for name in self.order}
        self.weight = 1 + sum(1 + w for w in self.weights.values())

    def final(self, text):
        text = re.sub(r'f\{(\w+)\}', lambda it: f'f{self.order[it.group(1)]}', text)
        text = re.sub(r'g\{(\w+)\}', lambda it: f'g{self.names[it.group(1)]}', text)
        return re.sub(r':T(\d+)', lambda it: f':g{self.base + int(it.group(1))}', text)

    def statement_lines(self, s, level, out):
        def line(text):
            out.append('  ' * level + text)
        def part(word, e, deeper=0):
            out.append('  ' * (level + deeper) + word + ' ' + ('none' if e is None else e.show()))
        def many(found, deeper=1):
            for x in found:
                self.statement_lines(x, level + deeper, out)
        if s[0] == 'block':
            line('block')
            many(s[1])
        elif s[0] == 'local':
            line(f'local {s[1]}' + ('' if s[2] is None else ' = ' + s[2].show()))
        elif s[0] == 'if':
            part('if', s[1])
            many(s[2])
            if s[3] is not None:
                line('else')
                many(s[3])
        elif s[0] == 'while':
            part('while', s[1])
            many(s[2])
        elif s[0] == 'do':
            line('do')
            many(s[1])
            part('until-not', s[2])
        elif s[0] == 'for':
            line('for')
            if isinstance(s[1], list):
                many(s[1])
            else:
                part('first', s[1], 1)
            part('test', s[2], 1)
            part('step', s[3], 1)
            many(s[4])
        elif s[0] == 'switch':
            part('switch', s[1])
            for value, body in s[2]:
                out.append('  ' * (level + 1) + ('default' if value is None else f'case {value}'))
                many(body, 2)
        elif s[0] in ('return', 'expression'):
            part(s[0], s[1])
        else:
            line(s[0])

    def cell(self, c):
        if isinstance(c, int):
            return str(c)
        (kind, which), plus, part = c
        number = self.names[which] if kind == 'object' else self.base + which
        return f'g{number}+{plus}.{part}'

    def lines(self, whole):
        out = [f'weight {self.weight} data {self.data}']
        if whole:
            for d in self.structs:
                tag = d['tag'] or '-'
                if d['members'] is None:
                    out.append(f'struct {tag} incomplete')
                else:
                    out.append(f'struct {tag} size {d["size"]} align {d["align"]} depth {d["depth"]}')
                    out += [f'  {place} {shown(ty)} {name}' for name, ty, place in d['members']]
            for word, name, size, align, cells, place in self.rows:
                held = ' =' + ''.join(' ' + self.cell(c) for c in cells) if cells else ''
                out.append(f'{word} {name} size {size} align {align} at {place}{held}')
        for name in self.order:
            ty, held, body = self.bodies[name]
            w = self.weights[name]
            out.append(f'function {name} {shown(ty[1])} weight {w} room {256 + 64 * w + self.rooms[name]}')
            if whole:
                for k, (of, memory) in enumerate(held):
                    word = 'parameter' if k < len(ty[2]) else 'local'
                    out.append(f'  {word} l{k} {shown(of)}' + (' memory' if memory else ''))
                self.statement_lines(('block', body), 1, out)
        return [self.final(line) for line in out]


def unescape(text):
    def repeat(it):
        return it.group(2).replace('\\}', '}') * int(it.group(1))
    text = re.sub(r'\\(\d+)\{((?:[^}\\]|\\.)*)\}', repeat, text)
    return re.sub(r'\\(.)', lambda it: {'n': '\n', 't': '\t', 'r': '\r'}.get(it.group(1), it.group(1)), text)


def main():
    sys.setrecursionlimit(100000)
    whole, is_rewritten = sys.argv[1] != 'measures', sys.argv[1] == 'rewritten'
    for line in sys.stdin:
        line = line.rstrip('\n')
        if line.startswith('  '):
            continue
        if not line or line.startswith('#'):
            print(line)
            continue
        line = line.removesuffix(' =>')
        unit = Measured(unescape(line))
        if is_rewritten:
            unit.rewrite()
        unit.finish()
        print(line + ' =>')
        for row in unit.lines(whole):
            print('  ' + row.replace('\\', '\\\\'))


main()
