#!/usr/bin/env python3
"""What gcc says of the C programs of crates/front_rows/data/programs.rows.

usage: tools/program_rows.py [--write] [FILE]

Each program that ends with a status is built by gcc, with tests of what is undefined, and run on its input. Without
--write the script says which rows differ from that. With --write it puts what is due behind each row that has nothing
there. Rows that trap, are undefined or run out of turns are written by hand: gcc has no answer to them.
"""
import os, subprocess, sys, tempfile

ROWS = os.path.join(os.path.dirname(os.path.abspath(__file__)), '..', 'crates', 'front_rows', 'data', 'programs.rows')
DECLARED = 'int putchar(int);int getchar(void);void abort(void);void exit(int);\n'
FLAGS = ['-std=c99', '-O0', '-w', '-fsanitize=undefined', '-fno-sanitize-recover=all']


def unescape(text):
    """The bytes of an input; no repeated texts stand there."""
    out, at = bytearray(), 0
    while at < len(text):
        if text[at] != '\\':
            out += text[at].encode()
            at += 1
        elif text[at + 1] == 'x':
            out.append(int(text[at + 2:at + 4], 16))
            at += 4
        else:
            out += {'n': '\n', 't': '\t', 'r': '\r'}.get(text[at + 1], text[at + 1]).encode()
            at += 2
    return bytes(out)


def escape(data):
    names = {10: '\\n', 9: '\\t', 13: '\\r', 92: '\\\\'}
    return ''.join(names.get(b) or (chr(b) if 32 <= b < 127 else '\\x%02x' % b) for b in data)


def due_of(text, data):
    """The lines that are due of a program that ends."""
    with tempfile.TemporaryDirectory() as folder:
        source, program = os.path.join(folder, 'p.c'), os.path.join(folder, 'p')
        with open(source, 'w') as f:
            f.write(DECLARED + text)
        built = subprocess.run(['gcc'] + FLAGS + ['-o', program, source], capture_output=True, text=True)
        if built.returncode:
            return ['gcc refuses it: ' + built.stderr]
        ran = subprocess.run([program], input=data, capture_output=True, timeout=20)
    if ran.returncode < 0 or b'runtime error' in ran.stderr:
        return ['it does not end by itself: ' + ran.stderr.decode(errors='replace')]
    lines = ['Ended { status: %d }' % ran.returncode]
    return lines + (['out ' + escape(ran.stdout)] if ran.stdout else [])


def main():
    words = sys.argv[1:]
    write = '--write' in words
    files = [w for w in words if w != '--write'] or [ROWS]
    lines = open(files[0]).read().split('\n')
    out, at, asked, wrong = [], 0, 0, 0
    while at < len(lines):
        if not lines[at] or lines[at].startswith('#'):
            out.append(lines[at])
            at += 1
            continue
        given = []
        while True:
            line = lines[at]
            at += 1
            given.append(line.removesuffix(' =>'))
            if line.endswith(' =>'):
                break
        due = []
        while at < len(lines) and lines[at].startswith('  '):
            due.append(lines[at][2:])
            at += 1
        text = '\n'.join(l for l in given if not l.startswith(('input ', 'turns '))) + '\n'
        data = b''.join(unescape(l[6:]) for l in given if l.startswith('input '))
        if not due or due[0].startswith('Ended'):
            asked += 1
            found = due_of(text, data)
            if write and not due and found[0].startswith('Ended'):
                due = found
            elif found != due:
                wrong += 1
                print('differs: %s\n  due   %s\n  found %s' % ('\n'.join(given), due, found))
        given[-1] += ' =>'
        out += given + ['  ' + l for l in due]
    if write:
        open(files[0], 'w').write('\n'.join(out))
    print('%d programs asked of gcc, %d differ' % (asked, wrong))
    return 1 if wrong else 0


if __name__ == '__main__':
    sys.exit(main())
