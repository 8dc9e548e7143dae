"""Makes a C text, of about 4 MiB but for `generated`, always the same.

usage: bench/made_text.py KIND FILE

The kinds: `ordinary` (declarations and functions with names, numbers, literals, comments, linemarkers and marks),
`operators` (one chain of operators), `commas` (one list of commas), `statements` (one block of statements),
`brackets` (an expression in 250 brackets, again and again), `typedefs` (names of types, and an object of each), and
units without faults for the typing: `unit` (the ordinary functions and a main), `names` (100,000 locals of one scope,
each used), `objects` (100,000 objects of file scope, each used), `scopes` (100,000 blocks with a local each),
`members` (a struct of 100,000 members, each used), `items` (an initialiser of a million items) and `cases` (a switch
of 100,000 labels). Units within the limit of the weight: `generated` (263 KB, 2,000 small functions, each called four
times), `long` (4 MiB of ordinary C, most of it comments), `one` (one function with all the weight that there may be),
`labels` (a switch of 20,000 labels), `deep` (expressions in 126 brackets, as deep as a text may nest), `high`
(expressions of 2,021 nodes one under the other, of which a tree has 2,048 at most) and `locals` (60,000 locals).
"""
import itertools
import sys

SIZE = 4 * 1024 * 1024 - 600


def draws():
    """Gives a function that draws a number below its argument, the same numbers in each run."""
    seed = 1

    def draw(n):
        nonlocal seed
        seed = (seed * 1103515245 + 12345) % 2**31
        return (seed >> 8) % n

    return draw


def function(number, draw):
    """An ordinary function."""
    names = ["v%d_%d" % (number, k) for k in range(4)]
    lines = [
        "/* function %d: %s */\n" % (number, "words of a comment " * draw(4)),
        "static int f%d(int %s, int %s, unsigned long %s) {\n" % (number, names[0], names[1], names[2]),
        "    int %s = %d; // a local\n" % (names[3], draw(100000)),
    ]
    for _ in range(3 + draw(5)):
        a, b, c = (names[draw(4)] for _ in range(3))
        mark = ["*", "-", "&", "|", "<<"][draw(5)] if c != names[2] else "+"
        lines.append("    %s = (%s + 0x%xu) %s (int)%s ^ %d;\n" % (a, b, draw(65536), mark, c, 1 + draw(7)))
        letter = ["a", "\\n", "\\x41", "\\0"][draw(4)]
        lines.append("    if (%s >= %d && %s != '%s') { %s += %s; } else { %s--; }\n" % (b, draw(999), c, letter, a, b, a))
    lines.append('    return sizeof "text %d\\n" > 3 ? %s : %s;\n}\n' % (number, names[0], names[3]))
    return "".join(lines)


def ordinary():
    draw = draws()
    return '# 1 "made.c"\n', (function(number, draw) for number in itertools.count()), ""


MANY = 100000


def unit():
    draw = draws()
    return '# 1 "made.c"\n', (function(number, draw) for number in itertools.count()), "int main(void) { return f0(1, 2, 3); }\n"


def numbered(line):
    """The line for each number below 100,000, with the number in place of each `#`."""
    return (line.replace("#", str(k)) for k in range(MANY))


def names():
    return "int main(void) {", itertools.chain(numbered("int a#;"), numbered("a#=1;")), "return 0; }\n"


def objects():
    return "", itertools.chain(numbered("int g#;"), ["int main(void) {"], numbered("g#=1;")), "return 0; }\n"


def members():
    front = "struct s {"
    parts = itertools.chain(numbered("int m#;"), ["};int main(void) {struct s x;"], numbered("x.m#=1;"))
    return front, parts, "return 0; }\n"


def long():
    draw = draws()
    comment = "/* " + "a line of words that says what the next function does, and why " * 72 + "*/\n"
    parts = (comment + function(number, draw) for number in range(750))
    return "", parts, "int main(void) { return f0(1, 2, 3); }\n"


KINDS = {
    "ordinary": ordinary,
    "operators": lambda: ("int main(void) { return 1", itertools.repeat(" + 1"), "; }\n"),
    "commas": lambda: ("int main(void) { 1", itertools.repeat(", 1"), "; return 0; }\n"),
    "statements": lambda: ("int main(void) {\n", itertools.repeat("    ;\n    1;\n"), "}\n"),
    "brackets": lambda: ("int main(void) {\n", itertools.repeat("(" * 250 + "1" + ")" * 250 + ";\n"), "}\n"),
    "typedefs": lambda: ("", ("typedef int t%d; t%d v%d;\n" % (n, n, n) for n in itertools.count()), ""),
    "unit": unit,
    "names": names,
    "objects": objects,
    "scopes": lambda: ("int main(void) {", numbered("{int a#;a#=1;}"), "return 0; }\n"),
    "members": members,
    "items": lambda: ("int a[] = {", itertools.repeat("1,", 1000000), "};int main(void) {return a[1];}\n"),
    "long": long,
    "one": lambda: ("int main(void) { int a; a = 0;;;;;", itertools.repeat("a=a+1;", 21843), "return a; }\n"),
    "labels": lambda: (
        "int main(void) {switch(1) {",
        ("case %d:break;" % label for label in range(20000)),
        "}return 0;}\n",
    ),
    "deep": lambda: (
        "int main(void) { int a; a = 1;",
        itertools.repeat("a=" + "(1+" * 126 + "a" + ")" * 126 + ";", 160),
        "return a; }\n",
    ),
    "high": lambda: (
        "int main(void) { int a; a = 1;",
        itertools.repeat("a=" + "a?a," * 1010 + "a" + ":a" * 1010 + ";", 25),
        "return a; }\n",
    ),
    "locals": lambda: ("int main(void) {", ("int a%d;" % local for local in range(60000)), "return 0; }\n"),
    "cases": lambda: ("int main(void) {switch(1) {", numbered("case #:break;"), "}return 0;}\n"),
}


def generated(count):
    """So many functions, each of a sum, a comparison and a branch, with constants that are drawn, and a `main` that calls
    each of them four times."""
    state = 0

    def draw():
        nonlocal state
        state = (state * 1664525 + 1013904223) % 2**32
        return state

    lines = []
    for k in range(count):
        factor = 1 + draw() // 2**24
        mask = draw() // 2**16
        lines.append(
            "unsigned f%d(unsigned a,unsigned b){unsigned c;unsigned d;c=a*%d+b;d=a^%d;"
            "if(c<d){c=c+d;}else{c=c-b;}return c^d;}\n" % (k, factor, mask)
        )
    calls = "".join("x=f%d(x,i);" % k for k in range(count))
    lines.append("int main(void){unsigned x;int i;x=1;for(i=0;i<4;i++){%s}putchar(x&127);return x>>25;}\n" % calls)
    return "".join(lines)


def made(kind):
    if kind == "generated":
        return generated(2000)
    front, parts, end = KINDS[kind]()
    text, size = [front], 0
    for part in parts:
        if size >= SIZE - len(part):
            break
        text.append(part)
        size += len(part)
    return "".join(text) + end


if __name__ == "__main__":
    kind, path = sys.argv[1:]
    with open(path, "w") as file:
        file.write(made(kind))
