"""The values of integer constants in their types (C99 6.6), so far as the steps ask for them."""

from collections import namedtuple

from pycparser import c_ast as c

Word = namedtuple("Word", "value size is_signed")

ARITHMETIC = {
    "+": lambda a, b: a + b,
    "-": lambda a, b: a - b,
    "*": lambda a, b: a * b,
    "&": lambda a, b: a & b,
    "|": lambda a, b: a | b,
    "^": lambda a, b: a ^ b,
}
COMPARISONS = {
    "==": lambda a, b: a == b,
    "!=": lambda a, b: a != b,
    "<": lambda a, b: a < b,
    ">": lambda a, b: a > b,
    "<=": lambda a, b: a <= b,
    ">=": lambda a, b: a >= b,
}
SIGNS = {"-": lambda a: -a, "+": lambda a: a, "~": lambda a: ~a}


def int_word(value):
    return Word(int(value), 4, True)


def fits(value, size, is_signed):
    low, bits = (-(1 << (8 * size - 1)), 8 * size - 1) if is_signed else (0, 8 * size)
    return low <= value < 1 << bits


def wrapped(value, size, is_signed):
    """The low bits of a value, read as a type."""
    value &= (1 << 8 * size) - 1
    return Word(value - (1 << 8 * size) if is_signed and value >> (8 * size - 1) else value, size, is_signed)


def result(value, size, is_signed):
    """What an operator gives; a signed overflow has no value."""
    if is_signed and not fits(value, size, True):
        return None
    return wrapped(value, size, is_signed)


def promoted(word):
    return word if word.size >= 4 else int_word(word.value)


def common(left, right):
    """Two operands in their common type (6.3.1.8)."""
    left, right = promoted(left), promoted(right)
    size = max(left.size, right.size)
    is_signed = all(word.is_signed for word in (left, right) if word.size == size)
    return [wrapped(word.value, size, is_signed) for word in (left, right)]


def is_text(expression):
    return isinstance(expression, c.Constant) and expression.type == "string"


def text_bytes(constant):
    """The bytes of a text or a character, without its quotes; escapes in octal are of three digits."""
    simple = {"n": 10, "t": 9, "r": 13, "a": 7, "b": 8, "f": 12, "v": 11}
    body = constant.value[1:-1].encode("utf-8", "surrogateescape")
    out, at = [], 0
    while at < len(body):
        if body[at] != ord("\\"):
            out.append(body[at])
            at += 1
        elif chr(body[at + 1]) in "01234567":
            out.append(int(body[at + 1 : at + 4], 8) & 255)
            at += 4
        else:
            out.append(simple.get(chr(body[at + 1]), body[at + 1]))
            at += 2
    return out


def literal(constant):
    """A number or a character, or None."""
    if constant.value[0] == "'":
        values = text_bytes(constant)
        return int_word((values[0] ^ 128) - 128) if len(values) == 1 else None
    digits = constant.value.rstrip("uUlL")
    suffix = constant.value[len(digits) :].lower()
    try:
        value = int(digits, 8) if digits.isdecimal() and digits[0] == "0" else int(digits, 0)
    except ValueError:
        return None
    signs = [False] if "u" in suffix else [True] if digits.isdecimal() and digits[0] != "0" else [True, False]
    types = [(size, sign) for size in ((8,) if "l" in suffix else (4, 8)) for sign in signs]
    return next((Word(value, *ty) for ty in types if fits(value, *ty)), None)


def divided(op, left, right):
    if right == 0:
        return None
    quotient = abs(left) // abs(right) * (1 if (left < 0) == (right < 0) else -1)
    return quotient if op == "/" else left - right * quotient


class Constants:
    """Evaluates by the types, tags and names that are known."""

    def __init__(self, kinds):
        self.kinds = kinds

    def word(self, expression):
        rule = getattr(self, "word_of_" + type(expression).__name__, None)
        return rule(expression) if rule else None

    def word_of_Constant(self, node):
        return None if node.type in ("string", "float", "double", "long double") else literal(node)

    def word_of_ID(self, node):
        value = self.kinds.constants.get(node.name)
        return None if value is None else int_word(value)

    def word_of_UnaryOp(self, node):
        if node.op == "sizeof":
            size = self.kinds.size_of_operand(node.expr)
            return None if size is None else Word(size, 8, False)
        word = self.word(node.expr)
        if word is None:
            return None
        if node.op == "!":
            return int_word(not word.value)
        word = promoted(word)
        return result(SIGNS[node.op](word.value), word.size, word.is_signed) if node.op in SIGNS else None

    def word_of_BinaryOp(self, node):
        left, right = self.word(node.left), self.word(node.right)
        if left is None or right is None:
            return None
        if node.op in ("&&", "||"):
            both, either = left.value and right.value, left.value or right.value
            return int_word(bool(both if node.op == "&&" else either))
        if node.op in ("<<", ">>"):
            return self.shifted(node.op, promoted(left), right.value)
        left, right = common(left, right)
        if node.op in COMPARISONS:
            return int_word(COMPARISONS[node.op](left.value, right.value))
        if node.op in ("/", "%"):
            value = divided(node.op, left.value, right.value)
        else:
            value = ARITHMETIC[node.op](left.value, right.value)
        return None if value is None else result(value, left.size, left.is_signed)

    @staticmethod
    def shifted(op, word, count):
        if not 0 <= count < 8 * word.size:
            return None
        value = word.value << count if op == "<<" else word.value >> count
        return wrapped(value, word.size, word.is_signed)

    def word_of_TernaryOp(self, node):
        condition, arms = self.word(node.cond), [self.word(node.iftrue), self.word(node.iffalse)]
        if condition is None or None in arms:
            return None
        return common(*arms)[0 if condition.value else 1]

    def word_of_Cast(self, node):
        ty, word = self.kinds.integer_type(node.to_type), self.word(node.expr)
        if word is None or ty is None:
            return None
        return Word(int(word.value != 0), 1, False) if ty == "_Bool" else wrapped(word.value, *ty)

    def word_of_FuncCall(self, node):
        place = self.kinds.offset(node)
        return None if place is None else Word(place, 8, False)
