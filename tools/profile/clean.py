"""Words that are taken out of a text, or spelled otherwise, before it is parsed."""

import re

TOKEN = re.compile(
    r"""
    (?P<line>^[ \t]*\#[^\n]*)
  | (?P<comment>/\*.*?\*/|//[^\n]*)
  | (?P<text>"(?:[^"\\\n]|\\.)*")
  | (?P<character>'(?:[^'\\\n]|\\.)*')
  | (?P<name>[A-Za-z_$][A-Za-z_0-9$]*)
  | (?P<number>\.?[0-9](?:[eEpP][+-]|[\w.])*)
  | (?P<blank>[ \t\r\f\v]+)
  | (?P<newline>\n)
  | (?P<mark>.)
    """,
    re.VERBOSE | re.MULTILINE | re.DOTALL,
)
MARKER = re.compile(r'[ \t]*#[ \t]*(?:line[ \t]+)?([0-9]+)[ \t]*(?:"((?:[^"\\]|\\.)*)"([ \t0-9]*))?[ \t\r]*$')

DROPPED = set(
    """__extension__ inline __inline __inline__ restrict __restrict __restrict__ volatile __volatile __volatile__
    register auto _Noreturn __thread _Thread_local""".split()
)
DROPPED_WITH_BRACKETS = {"__attribute__", "__attribute", "_Alignas", "__declspec"}
ASM = {"asm", "__asm", "__asm__"}
TYPEOF = {"typeof", "__typeof", "__typeof__"}
SPELLED = {
    "__const": "const",
    "__const__": "const",
    "__signed": "signed",
    "__signed__": "signed",
    "__builtin_offsetof": "offsetof",
    "__FUNCTION__": "__func__",
}
# Types that only a compiler knows: what uses them is a fault, unless nothing reaches it.
PRELUDE = "".join(
    f"typedef {ty} {name};\n"
    for ty, name in [
        ("struct __builtin_va_list_tag *", "__builtin_va_list"),
        ("double", "_Float128"),
        ("double", "_Float64x"),
        ("double", "_Float64"),
        ("double", "_Float32x"),
        ("double", "_Float32"),
    ]
)


class Cleaned:
    """A text for the parser, the files of it that are headers of a system, and faults that no parsing gets past."""

    def __init__(self, text, system, faults):
        self.text = text
        self.system = system
        self.faults = faults


def tokens(text):
    return [(m.lastgroup, m.group()) for m in TOKEN.finditer(text)]


def is_blank(token):
    return token[0] in ("blank", "newline", "line", "comment")


def next_word(stream, at):
    """The place of the first token from `at` on that is no blank."""
    while at < len(stream) and is_blank(stream[at]):
        at += 1
    return at


def behind_brackets(stream, at):
    """The place behind the group in brackets that begins at `at`, or `at` where none does."""
    depth = 0
    start = next_word(stream, at)
    if start == len(stream) or stream[start][1] != "(":
        return at
    for place in range(start, len(stream)):
        depth += {"(": 1, ")": -1}.get(stream[place][1], 0)
        if depth == 0:
            return place + 1
    return at


def newlines(stream, start, end):
    return "".join(text for kind, text in stream[start:end] if kind in ("newline", "line"))


def octal_escapes(literal):
    """Escapes in hexadecimal and the GNU one, as three octal digits, behind which any character may stand."""

    def octal(match):
        return "\\%03o" % (int(match.group(1), 16) & 255)

    escaped = re.sub(r"(?<!\\)((?:\\\\)*)\\e", r"\1\\033", literal)
    escaped = re.sub(r"\\\\|\\x([0-9a-fA-F]+)", lambda m: octal(m) if m.group(1) else m.group(), escaped)
    return re.sub(r"\\\\|\\([0-7]{1,3})", lambda m: "\\" + m.group(1).zfill(3) if m.group(1) else m.group(), escaped)


def blank_comment(text):
    return " " + "\n" * text.count("\n")


class Cleaner:
    def __init__(self, text, name):
        self.stream = tokens(text)
        self.file, self.line = name, 1
        self.out = []
        self.system = set()
        self.faults = []
        self.last = ";"

    def note_marker(self, text):
        """The place that a linemarker gives to the next line; other directives are dropped."""
        match = MARKER.match(text)
        if not match:
            return
        self.line = int(match.group(1)) - 1
        if match.group(2) is not None:
            self.file = match.group(2)
            if {"1", "3"} <= set(match.group(3).split()):  # the front of a header, and no macro of one
                self.system.add(self.file)
        self.out.append(f'# {match.group(1)} "{self.file}"')

    def fault(self, kind):
        self.faults.append((self.file, self.line, kind))

    def word(self, at, text):
        """Takes the name at a place, and gives the place behind what it stands for."""
        stream = self.stream
        if text in DROPPED:
            return at + 1
        if text in DROPPED_WITH_BRACKETS or text in ASM:
            if text in ASM and self.last in ";{}:)":
                kind = self.asm_kind(at + 1)
                if kind:
                    self.fault(kind)
            end = behind_brackets(stream, at + 1)
            if text in ASM and end == at + 1:
                end = behind_brackets(stream, next_word(stream, at + 1) + 1)
            self.out.append(newlines(stream, at, end))
            return end
        if text in TYPEOF and self.last == "extern":
            return self.alias(at)
        if text == "__builtin_va_arg":
            end = behind_brackets(stream, at + 1)
            self.out.append("__builtin_va_arg()" + newlines(stream, at, end))
            return end
        self.out.append(SPELLED.get(text, text))
        self.last = text
        return at + 1

    def alias(self, at):
        """Drops `extern typeof(..) NAME ..;`, which gives something a second name."""
        end = at
        while end < len(self.stream) and self.stream[end][1] != ";":
            end += 1
        while self.out.pop() != "extern":
            pass
        self.out.append(newlines(self.stream, at, end))
        return end

    def asm_kind(self, at):
        """An asm behind a declarator only names it for the linker; one that begins a statement is a fault."""
        return None if self.last == ")" else "asm"

    def mark(self, at, text):
        if text == "(":
            behind = next_word(self.stream, at + 1)
            if behind < len(self.stream) and self.stream[behind][1] == "{":
                self.fault("block as an expression")
        self.out.append(text)
        self.last = text
        return at + 1

    def take(self, at):
        kind, text = self.stream[at]
        if kind == "name":
            return self.word(at, text)
        if kind == "mark":
            return self.mark(at, text)
        if kind == "line":
            self.note_marker(text)
        elif kind == "comment":
            self.out.append(blank_comment(text))
        elif kind in ("text", "character"):
            self.out.append(octal_escapes(text))
            self.last = text
        else:
            self.out.append(text)
            if kind == "number":
                self.last = text
        return at + 1

    def run(self):
        at = 0
        while at < len(self.stream):
            end = self.take(at)
            self.line += sum(text.count("\n") for _, text in self.stream[at:end])
            at = end
        return Cleaned("".join(self.out), self.system, self.faults)


def clean(text, name):
    """The text as the parser takes it. Lines stay where they are."""
    return Cleaner(text, name).run()
