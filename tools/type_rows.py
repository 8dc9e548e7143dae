#!/usr/bin/env python3
"""Writes the row files of `type_rows`: literals and layouts by a C compiler of this machine (gcc, for
x86-64 in the LP64 model, as the language here), scopes by a model in Python.

usage: tools/type_rows.py        (writes crates/front_rows/data)
"""
import os, random, subprocess, tempfile

random.seed(19990701)
DATA = os.path.join(os.path.dirname(os.path.abspath(__file__)), '..', 'crates', 'front_rows', 'data')
NAMES = ['char', 'unsigned-char', 'short', 'unsigned-short', 'int', 'unsigned-int', 'long', 'unsigned-long']

def run_c(text):
    with tempfile.TemporaryDirectory() as folder:
        source, program = os.path.join(folder, 'a.c'), os.path.join(folder, 'a')
        open(source, 'w').write(text)
        subprocess.run(['gcc', '-std=c99', '-w', '-o', program, source], check=True)
        return subprocess.run([program], check=True, capture_output=True, text=True).stdout.split('\n')[:-1]

def write(name, head, rows):
    with open(os.path.join(DATA, name), 'w') as out:
        out.write(''.join('# ' + line if line else '#' for line in head.splitlines(True)) + '\n\n')
        out.write(''.join(f'{given} => {due}\n' for given, due in rows))

def integers():
    edges = [0, 1, 7, 8, 9, 10, 63, 64, 127, 128, 255, 256, 32767, 32768, 65535, 65536]
    edges += [2 ** k + d for k in (31, 32, 63) for d in (-1, 0, 1)] + [2 ** 64 - 1]
    edges += [random.getrandbits(random.randrange(1, 64)) for _ in range(30)]
    spellings = []
    for n in edges:
        for form in ('{}', '0{:o}', '0x{:x}', '0X{:X}'):
            text = form.format(n)
            if form == '{}' and n > 2 ** 63 - 1:
                continue
            if form == '0{:o}' and n == 0:
                continue
            spellings.append(text + random.choice(['', '', 'u', 'l', 'U', 'L', 'ul', 'LU', 'Lu', 'uL']))
    lines = ''.join(f'T({s});\n' for s in spellings)
    found = run_c('''#include <stdio.h>
#define T(c) printf("%s %lx\\n", _Generic((c), int: "int", unsigned: "unsigned-int", long: "long", unsigned long: "unsigned-long"), (unsigned long)_Generic((c), unsigned: (long)(int)(c), default: (c)))
int main(void) {''' + lines + '}')
    none = ['9223372036854775808', '18446744073709551616', '99999999999999999999', '9223372036854775808l',
            '18446744073709551616u', '0x10000000000000000', '0x10000000000000000ul', '02000000000000000000000']
    return list(zip(spellings, found)) + [(s, 'none') for s in none]

def in_row(text):
    """The spelling with the escapes of rows: a backslash is written twice."""
    return text.replace('\\', '\\\\')

ESCAPES = ['\\n', '\\t', '\\r', '\\a', '\\b', '\\f', '\\v', '\\\\', "\\'", '\\"', '\\?', '\\0', '\\7', '\\12', '\\101',
           '\\377', '\\x0', '\\x41', '\\xff', '\\x7F']

def characters():
    spellings = ["'" + c + "'" for c in 'aZ09 !"#%&()*+,-./:;<=>?@[]^_`{|}~'] + ["'" + e + "'" for e in ESCAPES]
    lines = ''.join(f'T({s});\n' for s in spellings)
    found = run_c('#include <stdio.h>\n#define T(c) printf("%lx\\n", (unsigned long)(long)(c))\nint main(void) {' + lines + '}')
    return [(in_row(s), f) for s, f in zip(spellings, found)]

def texts():
    spellings = ['""', '"a"', '"abc def"'] + ['"' + e + '"' for e in ESCAPES]
    for _ in range(30):
        spellings.append('"' + ''.join(random.choice(ESCAPES + list('ghijk')) for _ in range(random.randrange(1, 9))) + '"')
    lines = ''.join(f'T({s});\n' for s in spellings)
    found = run_c('''#include <stdio.h>
#define T(c) do { static const char s[] = c; for (unsigned long i = 0; i + 1 < sizeof s; i++) printf("%02x", (unsigned char)s[i]); printf("\\n"); } while (0)
int main(void) {''' + lines + '}')
    def shown(bytes_):
        out = ''
        for b in bytes.fromhex(bytes_):
            out += '\\n' if b == 10 else '\\\\' if b == 92 else chr(b) if 32 <= b < 127 else f'\\x{b:02x}'
        return out
    return [(in_row(s), shown(f)) for s, f in zip(spellings, found)]

def scopes():
    rows = []
    for _ in range(60):
        table, calls, told, marks = [], [], '', []
        for _ in range(random.randrange(1, 25)):
            name = random.choice('abcde')
            kind = random.choice(['declare', 'declare', 'find', 'find', 'find', 'enter', 'leave'])
            if kind == 'declare':
                table.append((name, len(calls)))
                calls.append(f'declare {name} {len(calls)}')
            elif kind == 'find':
                places = [k for k, entry in enumerate(table) if entry[0] == name]
                told += f'{places[-1]}:{table[places[-1]][1]} ' if places else 'none '
                calls.append(f'find {name}')
            elif kind == 'enter':
                marks.append(len(table))
            elif marks:
                table = table[:marks[-1]]
                calls.append(f'leave {marks.pop()}')
        if calls:
            rows.append((', '.join(calls), f'{told}/ {len(table)}'))
    return rows

def type_words(structs, depth):
    words = [random.choice(NAMES + [f'struct-{k}' for k in range(structs)] * 2)]
    for _ in range(random.choice([0, 0, 0, 1, 1, 2, 3])):
        words.append(random.choice(['*', str(random.randrange(1, 6))]))
    return words

def declare(words, name):
    """The C declaration of a name with a type that is written from the base outwards."""
    base = words[0].replace('struct-', 'struct s').replace('-', ' ')
    text, last = name, None
    for word in reversed(words[1:]):
        if word == '*':
            text = '*' + text
            last = '*'
        else:
            text = (f'({text})' if last == '*' else text) + f'[{word}]'
            last = '['
    return f'{base} {text};'

def struct_depth(structs, words):
    """How deep the type is: a struct in a pointer does not count, since it may be incomplete there."""
    inner = structs[int(words[0][7:])] if words[0].startswith('struct-') and '*' not in words[1:] else 1
    return inner + len(words) - 1

def layouts():
    rows, program = [], ''
    due_depth = []
    for r in range(150):
        structs = [[type_words(k, 0) for _ in range(random.randrange(1, 6))] for k in range(random.randrange(1, 4))]
        depths = []
        body = '{'
        for k, members in enumerate(structs):
            body += f'struct s{k} {{' + ' '.join(declare(m, f'm{i}') for i, m in enumerate(members)) + '};'
            depths.append(1 + max(struct_depth(depths, m) for m in members))
        last = len(structs) - 1
        body += f'struct T {{ char c; struct s{last} s; }}; printf("%zu %zu {depths[-1]}:", sizeof(struct s{last}), offsetof(struct T, s));'
        body += ''.join(f'printf(" %zu", offsetof(struct s{last}, m{i}));' for i in range(len(structs[-1])))
        program += body + 'printf("\\n");}\n'
        rows.append('; '.join(', '.join(' '.join(m) for m in members) for members in structs))
    found = run_c('#include <stdio.h>\n#include <stddef.h>\nint main(void) {' + program + '}')
    return list(zip(rows, found))

os.makedirs(DATA, exist_ok=True)
write('integers.rows', '''Integer constants (C99 6.4.4.1): the type, and the word of the value in hexadecimal digits (one of `unsigned int` is held
with its highest bit as the upper half), or `none` where no type of its list holds the value.''', integers())
write('characters.rows', '''Character constants (C99 6.4.4.4), with the escapes of rows: the word of the value in hexadecimal digits, as an `int` is
held in 64 bits.''', characters())
write('texts.rows', '''String literals (C99 6.4.5), with the escapes of rows: the bytes without the zero at the end.''', texts())
write('scopes.rows', '''Calls of a table of names, each row of a table of its own.

    declare NAME VALUE
    find NAME             the place and the value of the newest declaration, or `none`
    leave COUNT           a scope is left that began with so many names

Calls stand with commas between them. What they answer comes first, and then the number of names.''', scopes())
write('layouts.rows', '''Structs (C99 6.7.2.1): the size, the alignment and the depth of the last one, and the places of its members.

The structs of a row stand with semicolons between them, and members with commas; `struct-N` is the struct with this
number in the row. Behind the base type a `*` is a pointer to what stands before it, and a number an array of that.''', layouts())
