#!/usr/bin/env python3
"""cleaned_rows.py    writes the rows of crates/back_rows/data/cleaned.rows, and prints their number, and how many
instructions their longest runs take, before the passes and behind each of them

The first rows are written out here with what is due of them; the others have programs of a generator. What becomes
of a program is computed by `cleaned_model.py`, and how programs run by `vm_model.py`.
"""
import random
from collections import Counter
from itertools import count
from pathlib import Path

from cleaned_model import PASSES, target
from vm_model import Program, Run, escape

TOP = Path(__file__).resolve().parent.parent
MOST_TURNS = 16
HEAD = """# Programs over virtual registers, and what the passes make of them that clean their functions; written by
# tools/cleaned_rows.py.
#
# A program is written as in `vm_runs.rows`, and behind it:
#
#     input BYTES                      the input
#     turns NUMBER ..                  the turns that runs may take, one run for each
#     behind copies|dead|chains ..     passes: `local_copies`, `dead_writes` behind it, and `jump_chains` behind both
#
# What is due is a line for each run, with its ending and what was put, if anything was; and for each pass the text of
# the program behind it and those before it, and again a line for each run. Two numbers of turns are as many as the run
# takes, and one fewer. How many instructions there are is seen by their numbers. How many instructions a run takes is
# counted by the model that writes these rows, and no run takes more behind a pass than before it.
"""


class Function:
    def __init__(self, name, params, registers, blocks, objects=()):
        self.name, self.params, self.registers, self.objects = name, params, registers, objects
        self.blocks = tuple(tuple(block) for block in blocks)
        for number, block in enumerate(self.blocks):
            assert all(self.may_go(number, target(insn)) for insn in block), (name, number)

    def may_go(self, number, goal):
        """Whether a block may go to another one: to a later one, or to one that begins with a mark."""
        return goal is None or goal > number or self.blocks[goal][:1] == ('mrk',)

    def behind(self, word):
        return Function(self.name, self.params, self.registers, PASSES[word](self.blocks), self.objects)


def text(functions, with_counts):
    """The lines of functions, and with them how many parameters, registers and objects they have."""
    lines, number = [], 0
    for f in functions:
        lines.append(f'func {f.name}')
        if with_counts:
            lines += [f'params {f.params}', f'registers {f.registers}', *(f'object {size} 8' for size in f.objects)]
        for place, block in enumerate(f.blocks):
            lines.append(f'B{place}:')
            for insn in block:
                lines.append(f'{number} {insn}')
                number += 1
    return lines


def run(functions, given, turns):
    """How a program runs with so many turns, as a line, and how many turns and steps it takes."""
    model = Run(Program(text(functions, True) + [f'input {given}', f'turns {turns}']))
    ending = model.ending()
    return ending + (f' out {escape(model.out)}' if model.out else ''), turns - model.turns, model.steps


STEPS = Counter()


def row(said, functions, words, given=''):
    """A row with its due lines; the passes are gone through in their order, as far as the last that is named."""
    most, steps = run(functions, given, MOST_TURNS)[1:]
    turns = [most, most - 1] if most else [0]
    runs = [run(functions, given, k)[0] for k in turns]
    STEPS['before'] += steps
    asked = [f'input {given}'] if given else []
    lines = [f'# {said}', *text(functions, True), *asked, f'turns {" ".join(map(str, turns))}', f'behind {words} =>']
    due = list(runs)
    for word in PASSES:
        functions = [f.behind(word) for f in functions]
        before, steps = steps, run(functions, given, MOST_TURNS)[2]
        assert steps <= before, said
        STEPS[word] += steps
        if word in words.split():
            assert [run(functions, given, k)[0] for k in turns] == runs, said
            due += text(functions, False) + runs
    return '\n'.join(lines + [f'  {line}' for line in due] + [''])


# ---- rows that are written out: what is said, registers, blocks, and the blocks that are due behind passes by name

CHAIN = [f'mov.s32 v{k}, v{k - 1}' for k in range(1, 11)]
NAMED = [
    ('copies-cleaned: a copy, and what nothing reads', 4,
     [['ldc.s32 v1, 5', 'mov.s32 v2, v1', 'ior.s32 v3, v2, v2', 'ret.s32 v2']],
     {'copies': [['ldc.s32 v1, 5', 'mov.s32 v2, v1', 'ior.s32 v3, v1, v1', 'ret.s32 v1']],
      'dead': [['ldc.s32 v1, 5', 'ret.s32 v1']]}),
    ('a chain of ten copies', 11,
     [['ldc.s32 v0, 7', *CHAIN, 'ret.s32 v10']],
     {'copies': [['ldc.s32 v0, 7', *(f'mov.s32 v{k}, v0' for k in range(1, 11)), 'ret.s32 v0']],
      'dead': [['ldc.s32 v0, 7', 'ret.s32 v0']]}),
    ('a copy whose source is written between', 3,
     [['ldc.s32 v0, 7', 'mov.s32 v1, v0', 'ldc.s32 v0, 8', 'xor.s32 v2, v1, v0', 'ret.s32 v2']],
     {'copies': [['ldc.s32 v0, 7', 'mov.s32 v1, v0', 'ldc.s32 v0, 8', 'xor.s32 v2, v1, v0', 'ret.s32 v2']],
      'chains': [['ldc.s32 v0, 7', 'mov.s32 v1, v0', 'ldc.s32 v0, 8', 'xor.s32 v2, v1, v0', 'ret.s32 v2']]}),
    ('a copy of a copy whose first source is written between: the second reads the first source, and stays', 4,
     [['ldc.s32 v0, 7', 'mov.s32 v1, v0', 'mov.s32 v2, v1', 'ldc.s32 v0, 8', 'xor.s32 v3, v2, v0', 'ret.s32 v3']],
     {'copies': [['ldc.s32 v0, 7', 'mov.s32 v1, v0', 'mov.s32 v2, v0', 'ldc.s32 v0, 8', 'xor.s32 v3, v2, v0',
                  'ret.s32 v3']],
      'dead': [['ldc.s32 v0, 7', 'mov.s32 v2, v0', 'ldc.s32 v0, 8', 'xor.s32 v3, v2, v0', 'ret.s32 v3']]}),
    ('a source that is written again by a move of its copy is written', 3,
     [['ldc.s32 v0, 7', 'mov.s32 v1, v0', 'mov.s32 v0, v1', 'mov.s32 v1, v1', 'ior.s32 v2, v0, v1', 'ret.s32 v2']],
     {'copies': [['ldc.s32 v0, 7', 'mov.s32 v1, v0', 'mov.s32 v0, v0', 'mov.s32 v1, v1', 'ior.s32 v2, v0, v1',
                  'ret.s32 v2']],
      'dead': [['ldc.s32 v0, 7', 'mov.s32 v1, v0', 'ior.s32 v2, v0, v1', 'ret.s32 v2']]}),
    ('two registers that are exchanged', 4,
     [['ldc.s32 v0, 7', 'ldc.s32 v1, 2', 'mov.s32 v2, v0', 'mov.s32 v0, v1', 'mov.s32 v1, v2', 'sl.s32 v3, v1, v0',
       'ret.s32 v3']],
     {'copies': [['ldc.s32 v0, 7', 'ldc.s32 v1, 2', 'mov.s32 v2, v0', 'mov.s32 v0, v1', 'mov.s32 v1, v2',
                  'sl.s32 v3, v2, v0', 'ret.s32 v3']],
      'dead': [['ldc.s32 v0, 7', 'ldc.s32 v1, 2', 'mov.s32 v2, v0', 'mov.s32 v0, v1', 'sl.s32 v3, v2, v0',
                'ret.s32 v3']]}),
    ('a copy across a call', 3,
     [['ldc.s32 v0, 65', 'mov.s32 v1, v0', 'cal v2, putchar, v1', 'cal -, putchar, v1', 'ret.s32 v1']],
     {'copies': [['ldc.s32 v0, 65', 'mov.s32 v1, v0', 'cal v2, putchar, v0', 'cal -, putchar, v0', 'ret.s32 v0']],
      'dead': [['ldc.s32 v0, 65', 'cal v2, putchar, v0', 'cal -, putchar, v0', 'ret.s32 v0']]}),
    ('a copy across a call that writes its source', 2,
     [['ldc.s32 v0, 321', 'mov.s32 v1, v0', 'cal v0, putchar, v1', 'xor.s32 v0, v0, v1', 'ret.s32 v0']],
     {'copies': [['ldc.s32 v0, 321', 'mov.s32 v1, v0', 'cal v0, putchar, v0', 'xor.s32 v0, v0, v1', 'ret.s32 v0']],
      'dead': [['ldc.s32 v0, 321', 'mov.s32 v1, v0', 'cal v0, putchar, v0', 'xor.s32 v0, v0, v1', 'ret.s32 v0']]}),
    ('a copy that another block reads', 3,
     [['ldc.s32 v0, 3', 'mov.s32 v1, v0', 'btrue.s32 v1, B2'], ['ldc.s32 v1, 4', 'mov.s32 v2, v1'], ['ret.s32 v1']],
     {'copies': [['ldc.s32 v0, 3', 'mov.s32 v1, v0', 'btrue.s32 v0, B2'], ['ldc.s32 v1, 4', 'mov.s32 v2, v1'],
                 ['ret.s32 v1']],
      'dead': [['ldc.s32 v0, 3', 'mov.s32 v1, v0', 'btrue.s32 v0, B2'], ['ldc.s32 v1, 4'], ['ret.s32 v1']]}),
    ('dead code behind a trap: what may trap stays', 6,
     [['ldc.s32 v0, 2147483647', 'ldc.s32 v1, 1', 'add.s32 v2, v0, v1', 'ldc.u32 v3, 9', 'add.u32 v4, v3, v3',
       'neg.u32 v4, v3', 'neg.s32 v5, v1', 'ret.s32 v1']],
     {'dead': [['ldc.s32 v0, 2147483647', 'ldc.s32 v1, 1', 'add.s32 v2, v0, v1', 'neg.s32 v5, v1', 'ret.s32 v1']]}),
    ('a quotient that nothing reads, and what it reads, stay', 4,
     [['ldc.u64 v0, 0', 'mov.u64 v1, v0', 'ldc.u64 v2, 8', 'div.u64 v3, v2, v1', 'rem.u64 v3, v2, v1', 'ldc.s32 v2, 1',
       'ret.s32 v2']],
     {'dead': [['ldc.u64 v0, 0', 'ldc.u64 v2, 8', 'div.u64 v3, v2, v0', 'rem.u64 v3, v2, v0', 'ldc.s32 v2, 1',
                'ret.s32 v2']]}),
    ('a write that is dead on one branch alone stays', 2,
     [['ldc.s32 v0, 1', 'ldc.s32 v1, 7', 'btrue.s32 v0, B2'], ['ret.s32 v0'], ['ret.s32 v1']],
     {'dead': [['ldc.s32 v0, 1', 'ldc.s32 v1, 7', 'btrue.s32 v0, B2'], ['ret.s32 v0'], ['ret.s32 v1']]}),
    ('a write that both branches write again goes', 2,
     [['ldc.s32 v0, 1', 'ldc.s32 v1, 7', 'btrue.s32 v0, B2'], ['ldc.s32 v1, 8', 'ret.s32 v1'],
      ['ldc.s32 v1, 9', 'ret.s32 v1']],
     {'dead': [['ldc.s32 v0, 1', 'btrue.s32 v0, B2'], ['ldc.s32 v1, 8', 'ret.s32 v1'],
               ['ldc.s32 v1, 9', 'ret.s32 v1']]}),
    ('a write that the loop behind it reads in its next turn stays', 4,
     [['ldc.s32 v0, 3', 'ldc.s32 v1, 66', 'ldc.s32 v2, 1'],
      ['mrk', 'cal -, putchar, v1', 'ldc.s32 v1, 67', 'sub.s32 v0, v0, v2', 'btrue.s32 v0, B1'], ['ret.s32 v0']],
     {'dead': [['ldc.s32 v0, 3', 'ldc.s32 v1, 66', 'ldc.s32 v2, 1'],
               ['mrk', 'cal -, putchar, v1', 'ldc.s32 v1, 67', 'sub.s32 v0, v0, v2', 'btrue.s32 v0, B1'],
               ['ret.s32 v0']]}),
    ('a jump to a jump to a jump', 1,
     [['ldc.s32 v0, 3', 'jmp B1'], ['jmp B2'], ['jmp B3'], ['ret.s32 v0']],
     {'chains': [['ldc.s32 v0, 3', 'jmp B3'], ['jmp B3'], ['jmp B3'], ['ret.s32 v0']]}),
    ('branches to jumps, and a block that goes on with one', 1,
     [['ldc.s32 v0, 3', 'btrue.s32 v0, B2'], ['bfalse.s32 v0, B3'], ['jmp B3'], ['jmp B4'], ['ret.s32 v0']],
     {'chains': [['ldc.s32 v0, 3', 'btrue.s32 v0, B4'], ['bfalse.s32 v0, B4'], ['jmp B4'], ['jmp B4'],
                 ['ret.s32 v0']]}),
    ('a jump that is left alone by what was dead before it', 2,
     [['ldc.s32 v0, 3', 'btrue.s32 v0, B2'], ['jmp B2'], ['mov.s32 v1, v0', 'jmp B3'], ['ret.s32 v0']],
     {'copies': [['ldc.s32 v0, 3', 'btrue.s32 v0, B2'], ['jmp B2'], ['mov.s32 v1, v0', 'jmp B3'], ['ret.s32 v0']],
      'dead': [['ldc.s32 v0, 3', 'btrue.s32 v0, B2'], ['jmp B2'], ['jmp B3'], ['ret.s32 v0']],
      'chains': [['ldc.s32 v0, 3', 'btrue.s32 v0, B3'], ['jmp B3'], ['jmp B3'], ['ret.s32 v0']]}),
    ('a jump behind a mark or another instruction is none that is passed, nor is an empty block', 1,
     [['ldc.s32 v0, 3', 'jmp B1'], ['nop', 'jmp B2'], [], ['mrk', 'jmp B4'], ['ret.s32 v0']],
     {'chains': [['ldc.s32 v0, 3', 'jmp B1'], ['nop', 'jmp B2'], [], ['mrk', 'jmp B4'], ['ret.s32 v0']]}),
    ('a loop of jumps with its mark', 1,
     [['ldc.s32 v0, 3', 'jmp B2'], ['mrk', 'jmp B2'], ['jmp B3'], ['jmp B1']],
     {'dead': [['jmp B2'], ['mrk', 'jmp B2'], ['jmp B3'], ['jmp B1']],
      'chains': [['jmp B1'], ['mrk', 'jmp B1'], ['jmp B1'], ['jmp B1']]}),
    ('a loop that goes back by two jumps', 4,
     [['ldc.s32 v0, 3', 'ldc.s32 v1, 1', 'ldc.s32 v2, 46'],
      ['mrk', 'cal -, putchar, v2', 'sub.s32 v0, v0, v1', 'mov.s32 v3, v0', 'btrue.s32 v3, B3'], ['ret.s32 v2'],
      ['jmp B4'], ['jmp B1']],
     {'copies': [['ldc.s32 v0, 3', 'ldc.s32 v1, 1', 'ldc.s32 v2, 46'],
                 ['mrk', 'cal -, putchar, v2', 'sub.s32 v0, v0, v1', 'mov.s32 v3, v0', 'btrue.s32 v0, B3'],
                 ['ret.s32 v2'], ['jmp B4'], ['jmp B1']],
      'chains': [['ldc.s32 v0, 3', 'ldc.s32 v1, 1', 'ldc.s32 v2, 46'],
                 ['mrk', 'cal -, putchar, v2', 'sub.s32 v0, v0, v1', 'btrue.s32 v0, B1'], ['ret.s32 v2'], ['jmp B1'],
                 ['jmp B1']]}),
]


def named_row(said, registers, blocks, due):
    """The row of a program that is written out; the model has to say what is said to be due."""
    behind, found = blocks, {}
    for word, apply in PASSES.items():
        behind = found[word] = apply(tuple(tuple(block) for block in behind))
    for word, blocks_due in due.items():
        assert found[word] == tuple(tuple(block) for block in blocks_due), (said, word, found[word])
    return row(said, [Function('main', 0, registers, blocks)], ' '.join(due))


# ---- the generator

TYPES = {'narrow': ['s32', 'u32'], 'wide': ['s64', 'u64']}


class Generator:
    """Makes functions whose registers are narrow, with words of 32 bits, or wide, or have a pointer to eight bytes."""

    def __init__(self, chance):
        self.chance = chance

    def write(self, kind):
        self.recent[kind] = self.chance.choice(self.registers[kind])
        return f'v{self.recent[kind]}'

    def read(self, *kinds):
        """A register of one of these kinds, often the one that was written last."""
        kind = self.chance.choice(kinds)
        is_recent = kind in self.recent and self.chance.random() < 0.5
        return f'v{self.recent[kind] if is_recent else self.chance.choice(self.registers[kind])}'

    def word(self, kind):
        """A register that an operation on words of a kind may read."""
        return self.read('narrow') if kind == 'narrow' else self.read('narrow', 'wide')

    def kind_and_type(self):
        kind = self.chance.choice(['narrow', 'narrow', 'wide'])
        return kind, self.chance.choice(TYPES[kind])

    def move(self):
        if self.chance.random() < 0.2:
            source = self.read('pointer')
            return [f'mov.p64 {self.write("pointer")}, {source}']
        kind, ty = self.kind_and_type()
        source = self.word(kind)
        return [f'mov.{ty} {self.write(kind)}, {source}']

    def constant(self):
        kind, ty = self.kind_and_type()
        edge = 2**31 if kind == 'narrow' else 2**63
        number = self.chance.choice([0, 1, -1, edge - 1, -edge, self.chance.randrange(-99, 99)])
        return [f'ldc.{ty} {self.write(kind)}, {number}']

    def operation(self):
        kind, ty = self.kind_and_type()
        op = self.chance.choice('add add sub sub mul div rem and ior xor seq sne sl sle neg not'.split())
        operands = [self.word(kind) for _ in range(1 if op in ('neg', 'not') else 2)]
        result = self.write(self.chance.choice(list(TYPES)) if op in ('seq', 'sne', 'sl', 'sle') else kind)
        return [f'{op}.{ty} ' + ', '.join([result] + operands)]

    def shift(self):
        kind, ty = self.kind_and_type()
        source, counter = self.word(kind), self.write('narrow')
        op = self.chance.choice(['asr', 'lsl', 'lsr'])
        return [f'ldc.u32 {counter}, {self.chance.randrange(31)}', f'{op}.{ty} {self.write(kind)}, {source}, {counter}']

    def conversion(self):
        kind, ty = self.kind_and_type()
        source = self.read('narrow', 'wide')
        before = self.chance.choice(['s8', 'u8', 's16', 'u16', 's32', 'u32', 's64'])
        return [f'cvt.{before}.{ty} {self.write(kind)}, {source}']

    def access(self):
        pointer = self.read('pointer')
        if self.chance.random() < 0.2:
            return [f'mcpy {pointer}, {self.read("pointer")}, 8, 8']
        ty, size = self.chance.choice([('u8', 1), ('s16', 2), ('s32', 4), ('s64', 8)])
        plus = self.chance.randrange(0, 8, size)
        if self.chance.random() < 0.5:
            return [f'str.{ty} {pointer}, {plus}, {self.read("narrow", "wide")}']
        return [f'lod.{ty} {self.write("wide" if size == 8 else "narrow")}, {pointer}, {plus}']

    def call(self):
        name = self.chance.choice(['putchar', 'putchar', 'getchar', *self.callees])
        arguments = [self.read('narrow') for _ in range({'putchar': 1, 'getchar': 0}.get(name, 2))]
        result = self.write('narrow') if self.chance.random() < 0.5 else '-'
        return ['cal ' + ', '.join([result, name] + arguments)]

    def straight(self):
        """An instruction, or some with one another; moves are frequent."""
        others = [self.constant, self.access, self.call, self.call, self.shift, self.conversion, lambda: ['nop']]
        return self.chance.choice([self.move] * 7 + [self.operation] * 4 + others)()

    def start(self, params):
        """What gives each register a value, and the memory too."""
        pointers = [f'lda v{r}, m0+{8 * (k % 2)}' for k, r in enumerate(self.registers['pointer'])]
        words = [(r, 's32') for r in self.registers['narrow'][params:]] + [(r, 's64') for r in self.registers['wide']]
        constants = [f'ldc.{ty} v{r}, {self.chance.randrange(-9, 99)}' for r, ty in words]
        stores = [f'str.s64 v{r}, 0, {self.read("narrow", "wide")}' for r in self.registers['pointer'][:2]]
        return pointers + constants + stores

    def last(self, number, goals):
        """How a block ends: it goes on, or elsewhere, or returns."""
        kind = self.chance.choice(['on', 'branch', 'branch', 'jump', 'jump'])
        if not goals or number and self.chance.random() < 0.1:
            return [f'ret.s32 {self.read("narrow")}']
        if kind == 'branch':
            op = self.chance.choice(['btrue', 'bfalse'])
            return [f'{op}.s32 {self.read("narrow")}, B{self.chance.choice(goals)}']
        return [f'jmp B{self.chance.choice(goals)}'] if kind == 'jump' else []

    def block(self, number, params, marked, blocks):
        """A block, which may go to later ones, or back to marked ones."""
        is_last = number + 1 == blocks
        goals = [] if is_last else [k for k in range(1, blocks) if k > number or k in marked]
        if number and goals and number not in marked and self.chance.random() < 0.4:
            return [f'jmp B{self.chance.choice(goals)}']
        made = ['mrk'] if number in marked else [] if number else self.start(params)
        for _ in range(self.chance.choice([0, 2, 4, 8])):
            made += self.straight()
        return made + self.last(number, goals)

    def function(self, name, params, callees, blocks):
        sizes = {'narrow': self.chance.randrange(2 + params, 6), 'wide': self.chance.randrange(1, 3), 'pointer': 2}
        kinds = [kind for kind, size in sizes.items() for _ in range(size)]
        self.registers = {kind: [r for r, k in enumerate(kinds) if k == kind] for kind in sizes}
        self.callees, self.recent = callees, {}
        marked = [k for k in range(1, blocks) if self.chance.random() < 0.25]
        made = [self.block(number, params, marked, blocks) for number in range(blocks)]
        return Function(name, params, len(kinds), made, [16])


def generated(seed):
    """The first program of the seed whose run has a meaning."""
    for attempt in count():
        chance = random.Random(f'{seed} {attempt}')
        maker = Generator(chance)
        functions = [maker.function('f', 2, [], chance.randrange(1, 4))] if chance.random() < 0.3 else []
        callees = [f.name for f in functions]
        functions.append(maker.function('main', 0, callees, chance.randrange(2, 8)))
        if not run(functions, 'ab', MOST_TURNS)[0].startswith('Undefined'):
            return functions


def main():
    rows = [named_row(*named) for named in NAMED]
    for seed in range(200):
        words = 'copies dead chains' if seed % 10 == 0 else 'chains'
        rows.append(row(f'seed {seed}', generated(seed), words, 'ab'))
    (TOP / 'crates/back_rows/data/cleaned.rows').write_text(HEAD + '\n' + '\n'.join(rows))
    print(len(rows), dict(STEPS))


if __name__ == '__main__':
    main()
