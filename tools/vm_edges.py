#!/usr/bin/env python3
"""Prints rows of programs over virtual registers: each instruction with operands at its edges, and small programs with
every number of turns that tells. What is due of each is computed by the model in vm_model.py, but where it has no
meaning: that is said here, by the number of the instruction.

usage: tools/vm_edges.py >> crates/back_rows/data/vm_runs.rows
"""
import random

from alpha_constants import WORDS
from vm_model import BITS, End, Program, Run, escape

random.seed(20001231)
WIDE = ['s32', 'u32', 's64', 'u64']
SHOW = ['func show', 'params 1', 'registers 6', 'B0:', 'ldc.u64 v1, 8', 'ldc.s32 v2, 8', 'ldc.s32 v3, 1', 'B1:', 'mrk',
        'cvt.u64.s32 v4, v0', 'cal -, putchar, v4', 'lsr.u64 v0, v0, v1', 'sub.s32 v2, v2, v3', 'ldc.s32 v5, 0',
        'sne.s32 v5, v2, v5', 'btrue.s32 v5, B1', 'B2:', 'ret']
HEADS = ('func ', 'params ', 'registers ', 'object ', 'global ', 'input ', 'failing-')


def numbered(lines):
    """The lines with the numbers of the instructions."""
    out, count = [], 0
    for line in lines:
        if line.startswith(HEADS) or line.endswith(':'):
            out.append(line)
        else:
            out.append(f'{count} {line}')
            count += 1
    return out


def row(lines, turns=1000, due=None):
    """Prints a row, with what the model says is due where nothing is told."""
    lines = numbered(lines)
    print('\n'.join(lines))
    print(f'turns {turns} =>')
    if due:
        print(f'  {due}\n')
        return
    run = Run(Program(lines + [f'turns {turns}']))
    print(f'  {run.ending()}')
    if run.out:
        print('  out ' + escape(run.out))
    print()


def main_of(body, registers=8):
    return ['func main', 'params 0', f'registers {registers}', 'B0:'] + body + ['ldc.s32 v0, 7', 'ret.s32 v0']


def edges(ty):
    bits = BITS[ty]
    top = 1 << (bits - 1)
    numbers = [0, 1, -1, 2, 7, -7, top - 1, -top, 1 - top, 12345, -54321, random.getrandbits(bits) - top]
    return numbers


def word(ty, number):
    """The constant that holds the low bits of a number, as it is printed: with a sign."""
    bits = BITS[ty]
    low = number & ((1 << bits) - 1)
    return low - (1 << bits) if low >> (bits - 1) else low


def show(ty, register):
    return [f'cvt.{ty}.u64 v7, v{register}', 'cal -, show, v7']


def computes(op, ty, a, b):
    """Whether the operation has a value."""
    run = Run(Program([]))
    try:
        run.arithmetic(op, ty, a & (2 ** 64 - 1), b & (2 ** 64 - 1))
        return True
    except End:
        return False


def arithmetic():
    for op in ('add', 'sub', 'mul', 'div', 'rem', 'and', 'ior', 'xor'):
        for ty in WIDE:
            pairs = [(word(ty, a), word(ty, b)) for a in edges(ty) for b in edges(ty)]
            random.shuffle(pairs)
            good = [p for p in pairs if computes(op, ty, *p)]
            bad = [p for p in pairs if not computes(op, ty, *p)]
            for some in (good[:3], good[3:6]):
                body = []
                for a, b in some:
                    body += [f'ldc.{ty} v0, {a}', f'ldc.{ty} v1, {b}', f'{op}.{ty} v2, v0, v1'] + show(ty, 2)
                row(SHOW + main_of(body))
            for a, b in bad[:1]:
                row(SHOW + main_of([f'ldc.{ty} v0, {a}', f'ldc.{ty} v1, {b}', f'{op}.{ty} v2, v0, v1'] + show(ty, 2)))


def shifts():
    for op in ('asr', 'lsl', 'lsr'):
        for ty in WIDE:
            body = []
            for count in (0, 1, BITS[ty] - 1):
                a = word(ty, random.choice(edges(ty)[4:]))
                body += [f'ldc.{ty} v0, {a}', f'ldc.u64 v1, {count}', f'{op}.{ty} v2, v0, v1'] + show(ty, 2)
            row(SHOW + main_of(body))
        for ty, count in (('s32', 32), ('u64', 64), ('s64', -1)):
            body = [f'ldc.{ty} v0, 1', f'ldc.s64 v1, {count}', 'nop', f'{op}.{ty} v2, v0, v1']
            row(main_of(body), due='Undefined { pc: 3 }')


def conversions():
    for source in BITS:
        for targets in (WIDE[:2], WIDE[2:]):
            body = []
            for target in targets:
                for number in (-1, 1 << (BITS[source] - 1), 0x1234567890abcdef):
                    body += [f'ldc.s64 v0, {word("s64", number)}', f'cvt.{source}.{target} v2, v0'] + show(target, 2)
            row(SHOW + main_of(body))


def comparisons():
    for op in ('seq', 'sne', 'sl', 'sle'):
        for ty in WIDE:
            body = []
            for a, b in ((0, 0), (-1, 1), (1 << (BITS[ty] - 1), 1), (5, 6)):
                body += [f'ldc.{ty} v0, {word(ty, a)}', f'ldc.{ty} v1, {word(ty, b)}', f'{op}.{ty} v2, v0, v1',
                         'cal -, putchar, v2']
            row(main_of(body))


def single():
    for op in ('mov', 'neg', 'not'):
        for ty in WIDE:
            body = []
            for a in (0, 1, -5, (1 << (BITS[ty] - 1)) - 1):
                body += [f'ldc.{ty} v0, {word(ty, a)}', f'{op}.{ty} v2, v0'] + show(ty, 2)
            row(SHOW + main_of(body))


def memory():
    held = {'s8': 's32', 'u8': 's32', 's16': 's32', 'u16': 's32', 's32': 's32', 'u32': 'u32', 's64': 's64', 'u64': 'u64'}
    for ty in BITS:
        size = BITS[ty] // 8
        body = []
        for number in (-2, 0x7123456789abcdef, 1 << (BITS[ty] - 1)):
            body += [f'ldc.s64 v0, {word("s64", number)}', f'lda v1, m0+{size}', f'str.{ty} v1, {size}, v0',
                     f'lod.{ty} v2, v1, {size}'] + show(held[ty], 2)
        text = SHOW + main_of(body)
        at = text.index('func main') + 3
        row(text[:at] + ['object 32 8'] + text[at:])
    row(['global 8 8 writable abcdefgh', 'global 8 8 writable'] + SHOW + main_of(
        ['lda v0, g0+0', 'lda v1, g1+0', 'mcpy v1, v0, 8, 8', 'lod.u64 v2, v1, 0'] + show('u64', 2)))
    row(['global 4 4 writable abcd'] + SHOW + main_of(
        ['lda v0, g0+0', 'ldc.s64 v1, 2', 'add.p64 v0, v0, v1', 'lod.u8 v2, v0, -1', 'cal -, putchar, v2',
         'lod.u8 v2, v0, 1', 'cal -, putchar, v2']))


def undefined():
    local = lambda body: ['func main', 'params 0', 'registers 4', 'object 8 8', 'B0:'] + body + ['ldc.s32 v0, 7', 'ret.s32 v0']
    row(local(['nop', 'mov.s32 v0, v1']), due='Undefined { pc: 1 }')
    row(local(['lda v0, m0+0', 'lod.s32 v1, v0, 0']), due='Undefined { pc: 1 }')
    row(local(['lda v0, m0+0', 'ldc.s32 v1, 1', 'str.s32 v0, 6, v1']), due='Undefined { pc: 2 }')
    row(local(['lda v0, m0+0', 'ldc.s32 v1, 1', 'str.s32 v0, 8, v1']), due='Undefined { pc: 2 }')
    row(local(['lda v0, m0+0', 'ldc.s32 v1, 1', 'str.s32 v0, -4, v1']), due='Undefined { pc: 2 }')
    row(local(['ldc.p64 v0, 0', 'lod.s32 v1, v0, 0']), due='Undefined { pc: 1 }')
    row(local(['lda v0, m0+0', 'ldc.s64 v1, 9', 'add.p64 v0, v0, v1']), due='Undefined { pc: 2 }')
    row(['global 4 4 constant abcd'] + local(['lda v0, g0+0', 'ldc.s32 v1, 1', 'str.s8 v0, 0, v1']), due='Undefined { pc: 2 }')
    row(['func gives', 'params 0', 'registers 1', 'object 8 8', 'B0:', 'lda v0, m0+0', 'ret.p64 v0']
        + local(['cal v0, gives', 'ldc.s32 v1, 1', 'str.s32 v0, 0, v1']), due='Undefined { pc: 4 }')


FACTORIAL = ['func f', 'params 1', 'registers 4', 'B0:', 'ldc.s64 v1, 1', 'sle.s64 v2, v0, v1', 'bfalse.s32 v2, B2', 'B1:',
             'ret.s64 v1', 'B2:', 'sub.s64 v2, v0, v1', 'cal v3, f, v2', 'mul.s64 v3, v3, v0', 'ret.s64 v3']
PARITY = ['func even', 'params 1', 'registers 3', 'B0:', 'bfalse.s32 v0, B2', 'B1:', 'ldc.s32 v1, 1', 'sub.s32 v2, v0, v1',
          'cal v2, odd, v2', 'ret.s32 v2', 'B2:', 'ldc.s32 v1, 1', 'ret.s32 v1',
          'func odd', 'params 1', 'registers 3', 'B0:', 'bfalse.s32 v0, B2', 'B1:', 'ldc.s32 v1, 1', 'sub.s32 v2, v0, v1',
          'cal v2, even, v2', 'ret.s32 v2', 'B2:', 'ldc.s32 v1, 0', 'ret.s32 v1']


def calls():
    body = ['ldc.s64 v0, 20', 'cal v1, f, v0'] + show('s64', 1)
    for turns in (1000, 30, 29, 28, 1, 0):
        row(FACTORIAL + SHOW + main_of(body), turns)
    row(FACTORIAL + SHOW + main_of(['ldc.s64 v0, 21', 'cal v1, f, v0'] + show('s64', 1)))
    for n in (0, 1, 9, 10):
        main = ['func main', 'params 0', 'registers 2', 'B0:', f'ldc.s32 v0, {n}', 'cal v0, even, v0', 'ret.s32 v0']
        row(PARITY + main, n + 1)
        row(PARITY + main, n)
    local = ['func deep', 'params 1', 'registers 4', 'object 8 8', 'B0:', 'lda v1, m0+0', 'str.s64 v1, 0, v0', 'ldc.s64 v2, 1',
             'sub.s64 v2, v0, v2', 'ldc.s64 v3, 0', 'seq.s64 v3, v2, v3', 'btrue.s32 v3, B2', 'B1:', 'cal -, deep, v2', 'B2:',
             'lod.s64 v3, v1, 0', 'cvt.s64.s32 v3, v3', 'cal -, putchar, v3', 'ret']
    for turns in (12, 11, 8):
        row(local + ['func main', 'params 0', 'registers 1', 'B0:', 'ldc.s64 v0, 6', 'cal -, deep, v0', 'ldc.s32 v0, 3',
                     'ret.s32 v0'], turns)


NINE = ['func nine', 'params 9', 'registers 10', 'B0:'] + [f'cal -, putchar, v{k}' for k in range(9)] + ['ret.s32 v8']


def constants():
    """The words of the rows of constants, ten in a row."""
    for first in range(0, len(WORDS), 10):
        body = []
        for number in WORDS[first:first + 10]:
            body += [f'ldc.u64 v0, {word("s64", number)}'] + show('u64', 0)
        row(SHOW + main_of(body))


def arguments():
    """Nine arguments, of a call whose value is taken and of one whose value is dropped."""
    put = [f'ldc.s32 v{k}, {65 + k}' for k in range(9)]
    names = ', '.join(f'v{k}' for k in range(9))
    back = ', '.join(f'v{k}' for k in reversed(range(9)))
    main = ['func main', 'params 0', 'registers 10', 'B0:'] + put
    row(NINE + main + [f'cal v9, nine, {names}', 'cal -, putchar, v9', f'cal -, nine, {back}', 'cal -, putchar, v9',
                       'ret.s32 v9'])
    row(NINE + main + [f'cal -, nine, {names}', 'ret.s32 v8'], 9)
    shift = ['func turned', 'params 9', 'registers 10', 'B0:'] + [
        'cal v9, nine, v8, v0, v1, v2, v3, v4, v5, v6, v7', 'cal -, nine, v7, v8, v0, v1, v2, v3, v4, v5, v6', 'ret.s32 v9']
    row(NINE + shift + main + [f'cal v9, turned, {names}', 'ret.s32 v9'])


def far():
    """Displacements at the ends of what an access reaches, and past them."""
    places = (32767, -32768, 32768, -32769, 65535, 65536, -65536, -65537, 69992, -70000)
    body = ['lda v1, g0+70000']
    for k, plus in enumerate(places):
        body += [f'ldc.s32 v0, {97 + k}', f'str.u8 v1, {plus}, v0']
    for plus in places:
        body += [f'lod.u8 v0, v1, {plus}', 'cal -, putchar, v0', f'lod.s8 v0, v1, {plus}', 'cal -, putchar, v0']
    row(['global 140000 8 writable'] + main_of(body))
    wide = (('u16', 32766), ('s16', -32768), ('s32', 32768), ('u32', 32764), ('s64', 65536), ('u64', -65544))
    body = ['lda v1, g0+70000']
    for ty, plus in wide:
        to = {'u16': 's32', 's16': 's32'}.get(ty, ty)
        body += [f'ldc.{to} v0, {word(to, 0x7654321089abcdef)}', f'str.{ty} v1, {plus}, v0', f'lod.{ty} v2, v1, {plus}']
        body += show(to, 2)
    row(['global 140000 8 writable'] + SHOW + main_of(body))


def copies():
    """Copies at each alignment, of a number, a pointer, bytes that were never written, and another number."""
    fill = ['lda v0, m0+0', 'lda v1, m1+0', 'lda v2, g0+1', 'ldc.s32 v3, 1094861636', 'str.s32 v0, 0, v3', 'str.p64 v0, 8, v2',
            'str.s16 v0, 16, v3']
    seen = ['lod.s32 v4, v1, 0', 'cal -, putchar, v4', 'lod.p64 v5, v1, 8', 'lod.u8 v4, v5, 0', 'cal -, putchar, v4',
            'lod.u8 v4, v5, -1', 'cal -, putchar, v4', 'lod.u8 v4, v1, 17', 'cal -, putchar, v4']
    main = main_of([])
    objects = main[:3] + ['object 32 8', 'object 48 8', 'B0:']
    for align in (1, 2, 4, 8):
        row(['global 4 4 writable abcd'] + objects + fill + [f'mcpy v1, v0, 24, {align}'] + seen + main[4:])
    # a pointer in pieces at places that are none of its own, and back, and a copy onto itself
    torn = ['lda v6, m1+1', 'mcpy v6, v0, 24, 1', 'mcpy v0, v6, 24, 1', 'mcpy v0, v0, 24, 2', 'mcpy v1, v0, 24, 2']
    row(['global 4 4 writable abcd'] + objects + fill + torn + seen + main[4:])
    # past the reach of one pointer
    long = ['lda v0, g0+0', 'lda v1, g1+0', 'ldc.s32 v2, 65', 'ldc.s32 v3, 90']
    for align in (1, 2, 4, 8):
        ends = ['str.u8 v0, 0, v2', 'str.u8 v0, 16384, v3', 'str.u8 v0, 16399, v2', f'mcpy v1, v0, 16400, {align}']
        for plus in (0, 16384, 16399):
            ends += [f'lod.u8 v4, v1, {plus}', 'cal -, putchar, v4']
        row(['global 16400 8 writable', 'global 16400 8 writable'] + main_of(long + ends))


print('# each instruction with operands at its edges, by tools/vm_edges.py\n')
for part in (arithmetic, shifts, conversions, comparisons, single, memory):
    part()
print('# what has no meaning, with the number of the instruction\n')
undefined()
print('# calls that call themselves and each other, objects of each call, and numbers of turns\n')
calls()
print('# the words of the rows of constants\n')
constants()
print('# nine arguments, and calls whose value is dropped\n')
arguments()
print('# displacements at the ends of what an access reaches, and past them\n')
far()
print('# copies at each alignment, with pointers and bytes that were never written\n')
copies()
