#!/usr/bin/env python3
"""A model of the typing of units without faults: tokens, the grammar, types, conversions, constants and initialisers.

It is written from C99, `docs/language.md` and `docs/formats.md` alone, and shares nothing with the compiler. The rows that
are made from it are those of `typed_rows.py`.
"""
import re

VOID = ('void',)
CHAR, UCHAR, SHORT, USHORT = ('int', 1, True), ('int', 1, False), ('int', 2, True), ('int', 2, False)
INT, UINT, LONG, ULONG = ('int', 4, True), ('int', 4, False), ('int', 8, True), ('int', 8, False)
NAMES = {CHAR: 'char', UCHAR: 'uchar', SHORT: 'short', USHORT: 'ushort', INT: 'int', UINT: 'uint', LONG: 'long', ULONG: 'ulong'}
BASIC = {
    'void': VOID, 'char': CHAR, 'char signed': CHAR, 'char unsigned': UCHAR, 'short': SHORT, 'short signed': SHORT,
    'int short': SHORT, 'int short signed': SHORT, 'short unsigned': USHORT, 'int short unsigned': USHORT, 'int': INT,
    'signed': INT, 'int signed': INT, 'unsigned': UINT, 'int unsigned': UINT, 'long': LONG, 'int long': LONG,
    'long signed': LONG, 'int long signed': LONG, 'long unsigned': ULONG, 'int long unsigned': ULONG,
}
WORDS = {'void', 'char', 'short', 'int', 'long', 'signed', 'unsigned'}
BUILTINS = {'putchar': (INT, [INT]), 'getchar': (INT, []), 'abort': (VOID, []), 'exit': (VOID, [INT])}
TOKEN = re.compile(r'''\s+|/\*.*?\*/|//[^\n]*|([A-Za-z_]\w*)|(\d\w*)|('(?:[^'\\]|\\.[0-9a-f]*)')|("(?:[^"\\]|\\.)*")'''
                   r'''|(<<=|>>=|->|\+\+|--|<<|>>|<=|>=|==|!=|&&|\|\||[-+*/%&|^]=|[-+*/%&|^~!<>=?:;,.()\[\]{}])''', re.S)
LEVELS = [['||'], ['&&'], ['|'], ['^'], ['&'], ['==', '!='], ['<', '>', '<=', '>='], ['<<', '>>'], ['+', '-'], ['*', '/', '%']]
ASSIGN = {'=', '+=', '-=', '*=', '/=', '%=', '<<=', '>>=', '&=', '^=', '|='}
ESCAPES = {'n': 10, 't': 9, 'r': 13, 'a': 7, 'b': 8, 'f': 12, 'v': 11, '0': 0}


def tokens_of(text):
    found, at = [], 0
    while at < len(text):
        it = TOKEN.match(text, at)
        assert it, text[at:]
        at = it.end()
        if it.lastgroup is None and it.lastindex:
            found.append(('name number char text sign'.split()[it.lastindex - 1], it.group(it.lastindex)))
    return found + [('end', '')]


def bytes_in(body):
    """The bytes of what stands between quotes."""
    out, at = [], 0
    while at < len(body):
        if body[at] != '\\':
            out.append(ord(body[at]))
            at += 1
            continue
        it = re.match(r'\\(x[0-9a-fA-F]+|[0-7]{1,3}|.)', body[at:], re.S)
        word = it.group(1)
        at += it.end()
        if word[0] == 'x' and len(word) > 1:
            out.append(int(word[1:], 16) & 255)
        elif word[0] in '01234567':
            out.append(int(word, 8) & 255)
        else:
            out.append(ESCAPES.get(word, ord(word)))
    return out


def fit(ty, value):
    """A value in an integer type."""
    bits = 8 * ty[1]
    value &= (1 << bits) - 1
    return value - (1 << bits) if ty[2] and value >> (bits - 1) else value


def promoted(ty):
    return INT if ty[1] < 4 else ty


def common(a, b):
    a, b = promoted(a), promoted(b)
    if a[1] != b[1]:
        return a if a[1] > b[1] else b
    return a if not a[2] else b


def shown(ty):
    if ty[0] == 'int':
        return NAMES[ty]
    if ty[0] == 'void':
        return 'void'
    if ty[0] == 'ptr':
        return shown(ty[1]) + '*'
    if ty[0] == 'arr':
        return f'{shown(ty[1])}[{ty[2]}]'
    return f's{ty[1]}'


class Node:
    """An expression: its type, its word, its operands, and whether it is a place."""
    def __init__(self, ty, word, parts=(), place=False, value=None, base=None):
        self.ty, self.word, self.parts, self.place, self.value, self.base = ty, word, list(parts), place, value, base
        self.null = False

    def show(self):
        if self.parts == [] and not self.word.startswith('call '):
            return f'{shown(self.ty)}:{self.word}'
        word = self.word[5:] if self.word.startswith('call ') else self.word
        return '(' + ' '.join([f'{shown(self.ty)}:{word}'] + [p.show() for p in self.parts]) + ')'


class Unit:
    def __init__(self, text):
        self.toks, self.at = tokens_of(text), 0
        self.structs, self.tags = [], {}
        self.typedefs, self.scopes = {}, [{}]
        self.objects, self.functions, self.bodies, self.texts = [], [], {}, []
        self.locals, self.quiet = None, 0
        for name, (of, params) in BUILTINS.items():
            self.scopes[0][name] = ('function', name, of, params)
        while self.peek() != '':
            self.external()

    # ---- tokens

    def peek(self, ahead=0):
        return self.toks[min(self.at + ahead, len(self.toks) - 1)][1]

    def kind(self):
        return self.toks[self.at][0]

    def take(self, want=None):
        word = self.toks[self.at][1]
        assert want is None or word == want, (want, word, self.toks[self.at:self.at + 8])
        self.at += 1
        return word

    def accept(self, word):
        if self.kind() != 'text' and self.peek() == word:
            self.at += 1
            return True
        return False

    # ---- types

    def begins_type(self):
        return self.kind() == 'name' and (self.peek() in WORDS | {'const', 'struct', 'enum'} or self.peek() in self.typedefs)

    def specifier(self):
        words, ty = [], None
        while True:
            word = self.peek()
            if word == 'const':
                self.take()
            elif word in WORDS:
                words.append(self.take())
            elif word == 'struct':
                self.take()
                ty = self.struct()
            elif word == 'enum':
                self.take()
                ty = self.enum()
            elif ty is None and not words and word in self.typedefs:
                ty = self.typedefs[self.take()]
            else:
                break
        return ty if ty is not None else BASIC[' '.join(sorted(words))]

    def struct(self):
        tag = self.take() if self.kind() == 'name' else None
        if tag is None or tag not in self.tags:
            number = len(self.structs)
            self.structs.append({'tag': tag or '', 'members': None})
            if tag is not None:
                self.tags[tag] = number
        else:
            number = self.tags[tag]
        if self.accept('{'):
            members, end, align, depth = [], 0, 1, 0
            while not self.accept('}'):
                base = self.specifier()
                while True:
                    ty, name, _ = self.declarator(base)
                    end = -(-end // self.align(ty)) * self.align(ty)
                    members.append((name, ty, end))
                    end += self.size(ty)
                    align = max(align, self.align(ty))
                    depth = max(depth, self.depth(ty))
                    if not self.accept(','):
                        break
                self.take(';')
            self.structs[number].update(members=members, size=-(-end // align) * align, align=align, depth=1 + depth)
        return ('struct', number)

    def enum(self):
        if self.kind() == 'name':
            self.take()
        if self.accept('{'):
            value = 0
            while not self.accept('}'):
                name = self.take()
                if self.accept('='):
                    value = self.constant(self.conditional())
                self.scopes[0][name] = ('constant', value)
                value += 1
                self.accept(',')
        return INT

    def declarator(self, base):
        """The type that is declared, the name, and the names of the parameters where it is a function declarator."""
        stars = 0
        while self.accept('*'):
            while self.accept('const'):
                pass
            base = ('ptr', base)
        inner, name = None, None
        if self.peek() == '(' and self.peek(1) == '*':
            self.take('(')
            inner = self.at
            level = 1
            while level:
                word = self.take()
                level += (word == '(') - (word == ')')
        elif self.kind() == 'name':
            name = self.take()
        suffixes, names = [], None
        while self.peek() in ('[', '('):
            if self.accept('['):
                length = None if self.peek() == ']' else self.constant(self.conditional())
                self.take(']')
                suffixes.append(('arr', length))
            else:
                self.take('(')
                params, names_here = self.parameters()
                if names is None:
                    names = names_here
                suffixes.append(('fn', params))
        ty = base
        for kind, what in reversed(suffixes):
            ty = ('arr', ty, what) if kind == 'arr' else ('fn', ty, what)
        if inner is None:
            return ty, name, names if suffixes and suffixes[0][0] == 'fn' else None
        behind, self.at = self.at, inner
        ty, name, names = self.declarator(ty)
        self.take(')')
        self.at = behind
        return ty, name, names

    def parameters(self):
        params, names = [], []
        if self.accept(')'):
            return params, names
        if self.peek() == 'void' and self.peek(1) == ')':
            self.take()
            self.take()
            return params, names
        while True:
            while self.peek() == 'const':
                self.take()
            ty, name, _ = self.declarator(self.specifier())
            params.append(('ptr', ty[1]) if ty[0] == 'arr' else ty)
            names.append(name)
            if not self.accept(','):
                break
        self.take(')')
        return params, names

    def size(self, ty):
        if ty[0] == 'int':
            return ty[1]
        if ty[0] == 'ptr':
            return 8
        if ty[0] == 'arr':
            return ty[2] * self.size(ty[1])
        return self.structs[ty[1]]['size']

    def align(self, ty):
        if ty[0] == 'int':
            return ty[1]
        if ty[0] == 'ptr':
            return 8
        return self.align(ty[1]) if ty[0] == 'arr' else self.structs[ty[1]]['align']

    def depth(self, ty, behind=False):
        if ty[0] in ('int', 'void'):
            return 1
        if ty[0] == 'ptr':
            return 1 + self.depth(ty[1], True)
        if ty[0] == 'arr':
            return 1 + self.depth(ty[1], behind)
        return 1 if behind or self.structs[ty[1]]['members'] is None else self.structs[ty[1]]['depth']

    # ---- expressions

    def wanted(self, e):
        """The value of an expression: an array is a pointer to its first element."""
        if e.ty[0] == 'arr':
            return Node(('ptr', e.ty[1]), 'convert', [e], base=e.base, value=e.value)
        return e

    def convert(self, e, ty):
        e = self.wanted(e)
        if e.ty == ty:
            return e
        made = Node(ty, 'convert', [e])
        if ty[0] == 'int' and e.value is not None and e.ty[0] == 'int':
            made.value = fit(ty, e.value)
        if ty[0] == 'ptr':
            made.value = e.value
            made.null = e.null
        return made

    def number(self, ty, value):
        made = Node(ty, str(value), value=value)
        made.null = value == 0
        return made

    def lookup(self, name):
        for scope in reversed(self.scopes):
            if name in scope:
                return scope[name]
        raise AssertionError(name)

    def primary(self):
        kind, word = self.toks[self.at]
        if kind == 'number':
            self.take()
            return self.literal(word)
        if kind == 'char':
            self.take()
            return self.number(INT, fit(CHAR, bytes_in(word[1:-1])[0]))
        if kind == 'text':
            found = []
            while self.kind() == 'text':
                found += bytes_in(self.take()[1:-1])
            found.append(0)
            number = len(self.texts)
            if not self.quiet:
                self.texts.append(found)
            made = Node(('arr', CHAR, len(found)), f'T{number}', place=True)
            made.value = ('address', ('text', number), 0, len(found))
            return made
        if self.accept('('):
            e = self.expression()
            self.take(')')
            return e
        name = self.take()
        if self.accept('('):
            parts = []
            while not self.accept(')'):
                parts.append(self.assignment())
                self.accept(',')
            _, callee, of, params = self.lookup(name)
            word = callee if callee in BUILTINS else f'f{{{callee}}}'
            return Node(of, 'call ' + word, [self.convert(p, ty) for p, ty in zip(parts, params)])
        meaning = self.lookup(name)
        if meaning[0] == 'constant':
            return self.number(INT, meaning[1])
        if meaning[0] == 'local':
            return Node(meaning[2], f'l{meaning[1]}', place=True, base=meaning[1])
        made = Node(meaning[2], f'g{{{meaning[1]}}}', place=True)
        if meaning[2][0] == 'arr':
            made.value = ('address', ('object', meaning[1]), 0, self.size(meaning[2]))
        made.base = ('object', meaning[1])
        return made

    def literal(self, word):
        it = re.match(r'(0[xX][0-9a-fA-F]+|\d+)([uUlL]*)$', word)
        digits, suffix = it.group(1), it.group(2).lower()
        value = int(digits, 16) if digits[:2].lower() == '0x' else int(digits, 8) if digits[0] == '0' else int(digits)
        types = [INT, UINT, LONG, ULONG]
        if digits[0] != '0' and 'u' not in suffix:
            types = [INT, LONG]
        if 'u' in suffix:
            types = [t for t in types if not t[2]]
        if 'l' in suffix:
            types = [t for t in types if t[1] == 8]
        return self.number(next(t for t in types if fit(t, value) == value), value)

    def postfix(self):
        e = self.primary()
        while True:
            if self.accept('['):
                i = self.expression()
                self.take(']')
                a, b = self.wanted(e), self.wanted(i)
                target = (a if a.ty[0] == 'ptr' else b).ty[1]
                e = Node(target, 'index', [a, b], place=True)
            elif self.accept('.'):
                e = self.member('.', e, e.ty, e.base if isinstance(e.base, int) else None)
            elif self.accept('->'):
                a = self.wanted(e)
                e = self.member('->', a, a.ty[1], None)
            elif self.peek() in ('++', '--') and self.kind() == 'sign':
                e = Node(e.ty, 'after' + self.take(), [e])
            else:
                return e

    def member(self, word, e, ty, base):
        name = self.take()
        for k, (member, of, _) in enumerate(self.structs[ty[1]]['members']):
            if member == name:
                return Node(of, f'{word}{k}', [e], place=True, base=base)
        raise AssertionError(name)

    def unary(self):
        word = self.peek() if self.kind() in ('sign', 'name') else None
        if word in ('++', '--') and self.kind() == 'sign':
            self.take()
            e = self.unary()
            return Node(e.ty, word, [e])
        if word == 'sizeof':
            self.take()
            if self.peek() == '(' and self.is_type(1):
                self.take('(')
                ty = self.type_name()
                self.take(')')
            else:
                self.quiet += 1
                before = len(self.texts)
                ty = self.unary().ty
                del self.texts[before:]
                self.quiet -= 1
            return self.number(ULONG, self.size(ty))
        if word in ('&', '*', '+', '-', '~', '!') and self.kind() == 'sign':
            self.take()
            e = self.cast()
            if word == '&':
                if isinstance(e.base, int) and not self.quiet:
                    self.locals[e.base][1] = True
                made = Node(('ptr', e.ty), '&', [e])
                if isinstance(e.base, tuple):
                    made.value = ('address', e.base, 0, self.size(e.ty))
                return made
            e = self.wanted(e)
            if word == '*':
                return Node(e.ty[1], '*', [e], place=True)
            if word == '!':
                return Node(INT, '!', [e], value=None if not isinstance(e.value, int) else int(e.value == 0))
            ty = promoted(e.ty)
            e = self.convert(e, ty)
            value = None if e.value is None else fit(ty, {'+': e.value, '-': -e.value, '~': ~e.value}[word])
            return self.known(Node(ty, word, [e], value=value))
        return self.postfix()

    def known(self, node):
        node.null = node.value == 0 and node.ty[0] == 'int' and isinstance(node.value, int)
        return node

    def is_type(self, ahead):
        self.at += ahead
        found = self.begins_type()
        self.at -= ahead
        return found

    def type_name(self):
        return self.declarator(self.specifier())[0]

    def cast(self):
        if self.peek() == '(' and self.kind() == 'sign' and self.is_type(1):
            self.take('(')
            ty = self.type_name()
            self.take(')')
            e = self.wanted(self.cast())
            made = Node(ty, 'cast', [e])
            if ty[0] == 'int' and isinstance(e.value, int):
                made.value = fit(ty, e.value)
                made.null = made.value == 0
            if ty == ('ptr', VOID) and e.null and e.ty[0] == 'int':
                made.null, made.value = True, 0
            elif ty[0] == 'ptr' and e.null:
                made.value = 0
            return made
        return self.unary()

    def binary(self, level=0):
        if level == len(LEVELS):
            return self.cast()
        a = self.binary(level + 1)
        while self.kind() == 'sign' and self.peek() in LEVELS[level]:
            op = self.take()
            a = self.between(op, a, self.binary(level + 1))
        return a

    def between(self, op, a, b):
        a, b = self.wanted(a), self.wanted(b)
        both = isinstance(a.value, int) and isinstance(b.value, int) and a.ty[0] == b.ty[0] == 'int'
        if op in ('&&', '||'):
            value = None if not both else int((a.value != 0 and b.value != 0) if op == '&&' else (a.value != 0 or b.value != 0))
            return self.known(Node(INT, op, [a, b], value=value))
        if op in ('<<', '>>'):
            a, b = self.convert(a, promoted(a.ty)), self.convert(b, promoted(b.ty))
            both = both and 0 <= b.value < 8 * a.ty[1]
            value = None if not both else fit(a.ty, a.value << b.value if op == '<<' else a.value >> b.value)
            return self.known(Node(a.ty, op, [a, b], value=value))
        pointers = (a.ty[0] == 'ptr') + (b.ty[0] == 'ptr')
        if op in ('+', '-') and pointers:
            if pointers == 2:
                return Node(LONG, op, [a, b])
            p, i = (a, b) if a.ty[0] == 'ptr' else (b, a)
            made = Node(p.ty, op, [a, b])
            if isinstance(p.value, tuple) and isinstance(i.value, int):
                move = i.value * self.size(p.ty[1])
                made.value = p.value[:2] + (p.value[2] + (move if op == '+' else -move), p.value[3])
            return made
        if pointers:
            if op in ('==', '!='):
                ty = self.meet(a, b)
                a, b = self.convert(a, ty), self.convert(b, ty)
            return Node(INT, op, [a, b])
        ty = common(a.ty, b.ty)
        a, b = self.convert(a, ty), self.convert(b, ty)
        value = None if not both else self.compute(op, ty, a.value, b.value)
        return self.known(Node(INT if op in ('==', '!=', '<', '>', '<=', '>=') else ty, op, [a, b], value=value))

    def compute(self, op, ty, a, b):
        if op in ('/', '%'):
            if b == 0:
                return None
            q = abs(a) // abs(b) * (1 if (a < 0) == (b < 0) else -1)
            return fit(ty, q if op == '/' else a - q * b)
        tests = {'==': a == b, '!=': a != b, '<': a < b, '>': a > b, '<=': a <= b, '>=': a >= b}
        if op in tests:
            return int(tests[op])
        return fit(ty, {'+': a + b, '-': a - b, '*': a * b, '&': a & b, '|': a | b, '^': a ^ b}[op])

    def meet(self, a, b):
        """The type in which a pointer and something else meet (C99 6.5.9, 6.5.15)."""
        if a.ty == b.ty:
            return a.ty
        if b.null:
            return a.ty if a.ty[0] == 'ptr' else b.ty
        if a.null:
            return b.ty if b.ty[0] == 'ptr' else a.ty
        return ('ptr', VOID)

    def conditional(self):
        c = self.binary()
        if not self.accept('?'):
            return c
        a = self.expression()
        self.take(':')
        b = self.conditional()
        c, a, b = self.wanted(c), self.wanted(a), self.wanted(b)
        if a.ty[0] == 'int' and b.ty[0] == 'int':
            ty = common(a.ty, b.ty)
        elif a.ty == b.ty:
            ty = a.ty
        else:
            ty = self.meet(a, b)
        a, b = self.convert(a, ty), self.convert(b, ty)
        value = None
        if isinstance(c.value, int):
            value = a.value if c.value else b.value
        made = Node(ty, '?', [c, a, b], value=value if ty[0] == 'int' else None)
        return self.known(made)

    def assignment(self):
        a = self.conditional()
        if self.kind() != 'sign' or self.peek() not in ASSIGN:
            return a
        op = self.take()
        b = self.assignment()
        if op == '=':
            b = self.convert(b, a.ty)
        elif op in ('<<=', '>>='):
            b = self.convert(b, promoted(self.wanted(b).ty))
        elif a.ty[0] == 'int':
            b = self.convert(b, common(a.ty, b.ty))
        return Node(a.ty, op, [a, b])

    def expression(self):
        parts = [self.assignment()]
        while self.accept(','):
            parts.append(self.assignment())
        if len(parts) == 1:
            return parts[0]
        parts = [self.wanted(p) for p in parts]
        value = parts[-1].value if all(isinstance(p.value, int) for p in parts) and parts[-1].ty[0] == 'int' else None
        return self.known(Node(parts[-1].ty, ',', parts, value=value))

    def constant(self, e):
        assert isinstance(e.value, int), e.show()
        return e.value

    # ---- statements

    def declare_local(self, name, ty):
        number = len(self.locals)
        self.locals.append([ty, ty[0] in ('arr', 'struct')])
        self.scopes[-1][name] = ('local', number, ty)
        return number

    def declaration(self):
        base, found = self.specifier(), []
        while True:
            ty, name, _ = self.declarator(base)
            number = self.declare_local(name, ty)
            init = self.convert(self.assignment(), ty) if self.accept('=') else None
            found.append(('local', number, init))
            if not self.accept(','):
                break
        self.take(';')
        return found

    def block(self):
        self.scopes.append({})
        found = []
        while not self.accept('}'):
            found += self.statement()
        self.scopes.pop()
        return found

    def condition(self):
        self.take('(')
        e = self.wanted(self.expression())
        self.take(')')
        return e

    def statement(self):
        if self.accept('{'):
            return [('block', self.block())]
        if self.accept(';'):
            return [('empty',)]
        if self.begins_type():
            return self.declaration()
        word = self.peek() if self.kind() == 'name' else ''
        if word == 'if':
            self.take()
            c = self.condition()
            then = self.statement()
            return [('if', c, then, self.statement() if self.accept('else') else None)]
        if word == 'while':
            self.take()
            c = self.condition()
            return [('while', c, self.statement())]
        if word == 'do':
            self.take()
            body = self.statement()
            self.take('while')
            c = self.condition()
            self.take(';')
            return [('do', body, c)]
        if word == 'for':
            return self.loop()
        if word == 'switch':
            return self.switch()
        if word in ('break', 'continue'):
            self.take()
            self.take(';')
            return [(word,)]
        if word == 'return':
            self.take()
            e = None if self.peek() == ';' else self.convert(self.expression(), self.result)
            self.take(';')
            return [('return', e)]
        e = self.wanted(self.expression())
        self.take(';')
        return [('expression', e)]

    def loop(self):
        self.take()
        self.take('(')
        self.scopes.append({})
        if self.begins_type():
            first = self.declaration()
        else:
            first = None if self.peek() == ';' else self.wanted(self.expression())
            self.take(';')
        test = None if self.peek() == ';' else self.wanted(self.expression())
        self.take(';')
        step = None if self.peek() == ')' else self.wanted(self.expression())
        self.take(')')
        body = self.statement()
        self.scopes.pop()
        return [('for', first, test, step, body)]

    def switch(self):
        self.take()
        e = self.condition()
        e = self.convert(e, promoted(e.ty))
        self.take('{')
        self.scopes.append({})
        sections = []
        while not self.accept('}'):
            if self.accept('case'):
                value = fit(e.ty, self.constant(self.conditional()))
                self.take(':')
                sections.append((value, []))
            elif self.accept('default'):
                self.take(':')
                sections.append((None, []))
            else:
                sections[-1][1].extend(self.statement())
        self.scopes.pop()
        return [('switch', e, sections)]

    # ---- externals

    def external(self):
        storage = self.take() if self.peek() in ('typedef', 'static', 'extern') else ''
        base = self.specifier()
        if self.accept(';'):
            return
        while True:
            ty, name, names = self.declarator(base)
            if storage == 'typedef':
                self.typedefs[name] = ty
            elif ty[0] == 'fn':
                self.declare_function(name, ty)
                if self.peek() == '{':
                    self.take()
                    self.define(name, ty, names)
                    return
            else:
                self.declare_object(name, ty, storage)
            if not self.accept(','):
                break
        self.take(';')

    def declare_function(self, name, ty):
        if name not in BUILTINS and name not in self.scopes[0]:
            self.scopes[0][name] = ('function', name, ty[1], ty[2])
            self.functions.append(name)

    def define(self, name, ty, names):
        self.locals, self.result = [], ty[1]
        self.scopes.append({})
        for param, of in zip(names, ty[2]):
            self.declare_local(param, of)
        found = []
        while not self.accept('}'):
            found += self.statement()
        self.scopes.pop()
        self.bodies[name] = (ty, self.locals, found)

    def declare_object(self, name, ty, storage):
        if name not in self.scopes[0]:
            self.objects.append({'name': name, 'ty': ty, 'cells': [], 'defined': False})
        if not (ty[0] == 'arr' and ty[2] is None):
            self.scopes[0][name] = ('object', name, ty)
        entry = next(o for o in self.objects if o['name'] == name)
        if storage != 'extern':
            entry['defined'] = True
        if self.accept('='):
            entry['defined'] = True
            cells = []
            if ty[0] == 'arr' and ty[2] is None:
                cells, count = self.unsized(ty[1])
                ty = ('arr', ty[1], count)
            else:
                self.initialiser(ty, cells, 0)
            entry['cells'] = cells
        entry['ty'] = ty
        self.scopes[0][name] = ('object', name, ty)

    def text_bytes(self):
        found = []
        while self.kind() == 'text':
            found += bytes_in(self.take()[1:-1])
        return found + [0]

    def put(self, cells, at, more):
        cells.extend([0] * (at - len(cells)))
        cells.extend(more)

    def unsized(self, element):
        cells = []
        if self.kind() == 'text':
            cells = self.text_bytes()
            return cells, len(cells)
        self.take('{')
        count = 0
        while not self.accept('}'):
            self.initialiser(element, cells, count * self.size(element))
            count += 1
            self.accept(',')
        return cells, count

    def initialiser(self, ty, cells, at):
        if ty[0] == 'arr' and self.kind() == 'text' and ty[1] in (CHAR, UCHAR):
            found = self.text_bytes()
            self.put(cells, at, found[:ty[2]])
        elif ty[0] == 'arr':
            self.take('{')
            k = 0
            while not self.accept('}'):
                self.initialiser(ty[1], cells, at + k * self.size(ty[1]))
                k += 1
                self.accept(',')
        elif ty[0] == 'struct':
            self.take('{')
            k = 0
            while not self.accept('}'):
                _, of, offset = self.structs[ty[1]]['members'][k]
                self.initialiser(of, cells, at + offset)
                k += 1
                self.accept(',')
        else:
            e = self.convert(self.assignment(), ty)
            if isinstance(e.value, tuple):
                _, of, plus, _ = e.value
                self.put(cells, at, [(of, plus, part) for part in range(8)])
            else:
                value = e.value if e.value is not None else 0
                self.put(cells, at, list((value & (1 << 8 * self.size(ty)) - 1).to_bytes(self.size(ty), 'little')))
