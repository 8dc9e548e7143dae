"""A model of the rewriting of typed units: three rules, each applied to every expression from the leaves up.

It is written from `docs/language.md` ("Rewriting") alone, over the typed trees of `typed_model.py`, and shares nothing
with the compiler. The rows that are made from it are those of `typed_rows.py rewritten`.
"""
import re
from typed_model import Node, fit

COMPARED = {'==', '!=', '<', '>', '<=', '>='}


def is_integer(ty):
    return ty[0] == 'int'


def literal(e):
    """The value of an integer literal, and None of what is none."""
    if e.parts or not is_integer(e.ty) or not re.fullmatch(r'-?\d+', e.word):
        return None
    return int(e.word)


def number(ty, value):
    return Node(ty, str(value), value=value)


# ---- what an operator over literals gives, and None where it traps or is undefined

def exact(ty, value):
    """A sum, difference, product or negation: what does not fit a signed type traps."""
    return fit(ty, value) if not ty[2] or fit(ty, value) == value else None


def divided(op, ty, a, b):
    if b == 0:
        return None
    quotient = abs(a) // abs(b) * (1 if (a < 0) == (b < 0) else -1)
    if fit(ty, quotient) != quotient:
        return None
    return quotient if op == '/' else a - quotient * b


def shifted(op, ty, a, count):
    if not 0 <= count < 8 * ty[1]:
        return None
    return fit(ty, a << count) if op == '<<' else a >> count


def of_two(op, ty, a, b):
    if op in ('&&', '||'):
        return int(a != 0 and b != 0) if op == '&&' else int(a != 0 or b != 0)
    if op in COMPARED:
        return int({'==': a == b, '!=': a != b, '<': a < b, '>': a > b, '<=': a <= b, '>=': a >= b}[op])
    if op in ('/', '%'):
        return divided(op, ty, a, b)
    if op in ('<<', '>>'):
        return shifted(op, ty, a, b)
    if op in ('+', '-', '*'):
        return exact(ty, {'+': a + b, '-': a - b, '*': a * b}[op])
    return fit(ty, {'&': a & b, '|': a | b, '^': a ^ b}[op])


def of_one(op, ty, a):
    if op in ('cast', 'convert'):
        return fit(ty, a)
    return exact(ty, -a) if op == '-' else fit(ty, {'+': a, '~': ~a, '!': int(a == 0)}[op])


def value_of(e, values):
    if e.word == ',':
        return values[-1]
    if e.word == '?':
        return values[1] if values[0] else values[2]
    if len(values) == 1 and e.word in ('+', '-', '~', '!', 'cast', 'convert'):
        return of_one(e.word, e.ty, values[0])
    if len(values) == 2 and e.word in COMPARED | {'&&', '||', '+', '-', '*', '/', '%', '<<', '>>', '&', '|', '^'}:
        return of_two(e.word, e.ty, *values)
    return None


# ---- the rules

def fold(e, _):
    values = [literal(p) for p in e.parts]
    if not values or None in values or not is_integer(e.ty):
        return e
    value = value_of(e, values)
    return e if value is None else number(e.ty, value)


def traps(e):
    """Whether an operator may trap, by its operands."""
    signed = is_integer(e.parts[0].ty) and e.parts[0].ty[2] and e.parts[-1].ty[0] != 'ptr'
    return e.word in ('/', '%') or e.word in ('+', '-', '*') and signed


def is_idle(e, held, place=False):
    """Whether nothing comes of an expression but its value: no call, assignment, step, load, or operator that may trap."""
    if not e.parts and not e.word.startswith('call '):
        if literal(e) is not None:
            return not place
        is_local = e.word.startswith('l')
        return place or is_local and not held[int(e.word[1:])][1]
    if place:
        if e.word == '*' and len(e.parts) == 1 or e.word.startswith('->') or e.word == 'index':
            return all(is_idle(p, held) for p in e.parts)
        return e.word.startswith('.') and is_idle(e.parts[0], held, True)
    if e.word in ('cast', 'convert'):
        return is_idle(e.parts[0], held, e.parts[0].ty[0] == 'arr')
    if e.word in ('?', ','):
        return all(is_idle(p, held) for p in e.parts)
    if len(e.parts) == 1:
        if e.word == '&':
            return is_idle(e.parts[0], held, True)
        if e.word == '-' and e.ty[2]:
            return False
        return e.word in ('+', '-', '~', '!') and is_idle(e.parts[0], held)
    if len(e.parts) == 2 and (e.word in COMPARED or e.word in ('&&', '||', '+', '-', '*', '/', '%', '<<', '>>', '&', '|', '^')):
        return not traps(e) and all(is_idle(p, held) for p in e.parts)
    return False


def holds_all(a, b):
    """Whether each value of the one integer type is one of the other."""
    low = lambda ty: -(1 << (8 * ty[1] - 1)) if ty[2] else 0
    high = lambda ty: (1 << (8 * ty[1] - ty[2])) - 1
    return low(b) <= low(a) and high(a) <= high(b)


def simplify_conversion(e):
    x = e.parts[0]
    if not is_integer(e.ty):
        return e
    if x.ty == e.ty:
        return x
    if x.word == 'convert' and is_integer(x.ty) and is_integer(x.parts[0].ty):
        if x.ty[1] >= e.ty[1] or holds_all(x.parts[0].ty, x.ty):
            return Node(e.ty, 'convert', [x.parts[0]])
    return e


def simplify(e, held):
    if e.word == 'convert':
        return simplify_conversion(e)
    if len(e.parts) != 2 or e.word not in ('+', '-', '*', '|', '^', '<<', '>>'):
        return e
    a, b = e.parts
    if literal(b) == (1 if e.word == '*' else 0):
        return a
    if e.word in ('+', '*') and literal(a) == (1 if e.word == '*' else 0):
        return b
    if e.word == '*' and (literal(b) == 0 and is_idle(a, held) or literal(a) == 0 and is_idle(b, held)):
        return number(e.ty, 0)
    return e


def prune(e, _):
    if e.word not in ('?', '&&', '||') or literal(e.parts[0]) is None:
        return e
    known = literal(e.parts[0]) != 0
    if e.word == '?':
        return e.parts[1] if known else e.parts[2]
    if known == (e.word == '||'):
        return number(e.ty, int(known))
    return Node(e.ty, '!', [Node(e.ty, '!', [e.parts[1]])])


def up(rule, e, held):
    return rule(Node(e.ty, e.word, [up(rule, p, held) for p in e.parts], e.place), held)


def rewritten(e, held):
    for rule in (fold, simplify, prune):
        e = up(rule, e, held)
    return e


def rewritten_statement(s, held):
    """A statement with its outermost expressions rewritten; its other parts are lists, numbers and words."""
    def part(x):
        if isinstance(x, Node):
            return rewritten(x, held)
        if isinstance(x, list):
            return [part(y) for y in x]
        return tuple(part(y) for y in x) if isinstance(x, tuple) else x
    return part(s)
