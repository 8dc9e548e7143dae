"""What to do about a refusal of the compiler, by its line and the text. `tools/place` shows it."""
import re
from collections import Counter

# the deepest nesting that is taken
DEEPEST = 256

KEYWORDS = frozenset("""auto break case char const continue default do double else enum extern float for goto if inline
int long register restrict return short signed sizeof static struct switch typedef union unsigned void volatile while
_Bool _Complex _Imaginary""".split())
LEFT_OUT = {
    "float": "there are no floating types", "double": "there are no floating types",
    "union": "there are no unions", "goto": "there is no `goto`: a loop, `break`, or a function that returns early",
    "volatile": "there is no `volatile`: leave it out", "register": "there is no `register`: leave it out",
    "auto": "there is no `auto`: leave it out", "inline": "there is no `inline`: leave it out, or write `static` alone",
    "restrict": "there is no `restrict`: leave it out", "_Bool": "there is no `_Bool`: take `int` or `unsigned char`",
    "_Complex": "there are no floating types", "_Imaginary": "there are no floating types",
}
DIRECTIVES = frozenset(b"include define undef if ifdef ifndef elif else endif line error warning pragma import".split())

TOKEN = re.compile(
    rb"""(?P<blank>[ \t\n\r\v\f]+|//[^\n]*|/\*.*?\*/|(?<![^\n])[ \t]*\#[ \t]+[0-9][^\n]*)
         | (?P<number>\.?[0-9][A-Za-z0-9_.]*)
         | (?P<word>[A-Za-z_][A-Za-z0-9_]*)
         | (?P<text>"(?:\\[^\n]|[^"\\\n])*"|'(?:\\[^\n]|[^'\\\n])*')
         | (?P<mark>\.\.\.|<<=|>>=|->|\+\+|--|<<|>>|[<>=!*/%+\-&^|]=|&&|\|\||[][(){}.&*+\-~!/%<>^|?:;=,])
         | (?P<other>.)""",
    re.DOTALL | re.VERBOSE)


class Tokens:
    """The tokens of a text, each with its kind, its text and its offset, as far as it has any."""

    def __init__(self, data):
        self.data = data
        self.all = []
        at = 0
        while at < len(data):
            match = TOKEN.match(data, at)
            at = match.end()
            if match.lastgroup != "blank":
                self.all.append((match.lastgroup, match.group().decode("latin-1"), match.start()))

    def at(self, offset):
        """The number of the token at an offset, or of the first behind it."""
        low, high = 0, len(self.all)
        while low < high:
            middle = (low + high) // 2
            if self.all[middle][2] < offset:
                low = middle + 1
            else:
                high = middle
        return low

    def open_at(self, count):
        """The brackets that are open in front of a token, as text and offset."""
        opened = []
        for kind, text, at in self.all[:count]:
            if kind == "mark" and text in "([{":
                opened.append((text, at))
            elif kind == "mark" and text in ")]}" and opened:
                opened.pop()
        return opened


class Segment:
    """A segment of a group (docs/formats.md, "Nesting")."""

    def __init__(self, at):
        self.at, self.count, self.kinds, self.inner = at, 0, Counter(), None

    def cost(self):
        return self.count + (self.inner.whole if self.inner else 0)


def nesting(tokens):
    """The segments of the deepest chain, from the outside, with what each nests in `whole`."""
    best, segment = [None], [Segment(0)]

    def end():
        now = segment[-1]
        now.whole = now.cost()
        if best[-1] is None or now.whole > best[-1].whole:
            best[-1] = now
        segment[-1] = Segment(None)

    every = tokens.all
    for k, (kind, text, at) in enumerate(every):
        is_last = k + 1 == len(every) or every[k + 1][1] != "else"
        if kind == "mark" and text in ")]}":
            if len(segment) > 1:
                end()
                segment.pop()
                deepest = best.pop()
                outer = segment[-1]
                if outer.inner is None or deepest.whole > outer.inner.whole:
                    outer.inner = deepest
                if text == "}" and is_last:
                    end()
            continue
        if segment[-1].at is None:
            segment[-1].at = at
        if kind == "mark" and text not in ";,:" or text in ("if", "while", "for", "do", "switch", "sizeof"):
            segment[-1].count += 1
            segment[-1].kinds[text] += 1
        if kind == "mark" and text in "([{":
            segment.append(Segment(None))
            best.append(None)
        elif kind == "mark" and text in ";," and is_last:
            end()
    while True:
        end()
        if len(segment) == 1:
            break
        segment.pop()
        deepest = best.pop()
        if segment[-1].inner is None or deepest.whole > segment[-1].inner.whole:
            segment[-1].inner = deepest
    chain, now = [], best[0]
    while now:
        chain.append(now)
        now = now.inner
    return chain


# ---- where no token begins

PREPROCESS = "preprocess the text first, `gcc -E a.c >a.i`, which keeps its places, and give a.i"
ALONE = "`putchar`, `getchar`, `abort` and `exit` are there without a header, and the system's headers are not taken"


def of_directive(data, at):
    """What to do about a `#`."""
    line = data[at:].split(b"\n", 1)[0]
    is_first = not data[data.rfind(b"\n", 0, at) + 1:at].strip(b" \t")
    word = re.match(rb"#[ \t]*([a-z]+)", line)
    if is_first and word and word.group(1) == b"pragma":
        return "there are no pragmas: take the line out"
    if is_first and word and word.group(1) == b"include":
        return f"{PREPROCESS}; {ALONE}"
    if is_first and word and word.group(1) in DIRECTIVES:
        return PREPROCESS
    if is_first and re.match(rb"#[ \t]*[0-9]", line):
        return "this is no linemarker: `# 12 \"a.c\" 1` is one, with nothing behind its last number"
    return "`#` is no token: it stands in lines for the preprocessor alone"


def of_number(text):
    """What to do about a number that is none."""
    low = text.lower()
    if low.startswith("0x"):
        if re.match(r"0x[0-9a-f]*(\.|p)|0x[0-9a-f.]*p", low):
            return "there are no floating types"
        if re.fullmatch(r"0x[ul]*", low):
            return "a hexadecimal number has at least one digit behind `0x`"
    elif re.fullmatch(r"0b[01]+[ul]*", low):
        value = int(re.match(r"0b([01]+)", low).group(1), 2)
        return f"there are no binary numbers: `{value:#x}`"
    elif re.fullmatch(r"[0-9]*\.?[0-9]*(e[0-9]*)?[fl]?", low) and ("." in low or "e" in low or low.endswith("f")):
        return "there are no floating types: this number has to be an integer"
    elif re.fullmatch(r"0[0-9]+[ul]*", low):
        return "a number that begins with 0 is octal, and has the digits 0 to 7 alone"
    if re.fullmatch(r"(0x[0-9a-f]+|[0-9]+)[ul]*", low):
        number = re.match(r"0x[0-9a-f]+|[0-9]+", low).group()
        ends = low[len(number):]
        if ends.count("l") == 2 and ends.count("u") < 2:
            return f"there is no `long long`, and `long` has 8 bytes: `{text[:len(number)]}{'U' if 'u' in ends else ''}L`"
        return "at most one `u` and one `l` stand behind a number"
    return "a number goes on through letters, digits, `_` and `.`, and this run is none"


def of_literal(data, at):
    """What to do about a character or text that is none."""
    line = data[at:].split(b"\n", 1)[0]
    quote = line[:1]
    body = re.match(rb"(?:\\.|[^\\" + quote + rb"])*", line[1:]).group()
    name = "character" if quote == b"'" else "text"
    for escape in re.finditer(rb"\\(x[0-9A-Fa-f]*|[0-7]{1,3}|.)", body):
        word = escape.group(1)
        if word[:1] == b"x" and word[1:] and int(word[1:], 16) > 255 or word.isdigit() and int(word, 8) > 255:
            return f"the value of `\\{word.decode('latin-1')}` is above 255"
        if not word.isdigit() and word[:1] not in b"ntrabfv\\'\"?" and (word[:1] != b"x" or not word[1:]):
            return f"there is no escape `\\{word[:1].decode('latin-1')}`"
    if line[1 + len(body):2 + len(body)] != quote:
        if line.rstrip(b"\r").endswith(b"\\"):
            return f"this {name} goes on in the next line, which is for the preprocessor: {PREPROCESS}"
        return f"this {name} is not closed on its line"
    if not body:
        return "a character is one byte between the quotes"
    items = len(re.findall(rb"\\(?:x[0-9A-Fa-f]*|[0-7]{1,3}|.)|.", body))
    return f"a character is one byte between the quotes, and these are {items}"


def of_lex(data, at):
    """What to do where no token begins."""
    rest = data[at:at + 400]
    if not rest:
        return "the text ends within a token"
    if rest.startswith(b"\xef\xbb\xbf"):
        return "a byte-order mark: take these three bytes out, `tail -c +4 a.c >b.c` where the file begins with them"
    if data[:2] in (b"\xff\xfe", b"\xfe\xff"):
        return "the text is in UTF-16: `iconv -f UTF-16 -t UTF-8 a.c | tail -c +4 >b.c`, or save it as UTF-8 without a byte-order mark"
    if rest[:1] == b"#":
        return of_directive(data, at)
    if rest[:2] == b"/*":
        return "this comment is not closed"
    if rest[:1] in b"'\"":
        return of_literal(data, at)
    number = re.match(rb"\.?[0-9][A-Za-z0-9_.]*", data[at:])
    if number:
        return of_number(number.group().decode("latin-1"))
    if re.match(rb"\\[ \t\r]*(\n|$)", rest):
        return f"a line that goes on in the next one is for the preprocessor: {PREPROCESS}"
    if rest[0] >= 0x80:
        for encoding in ("utf-8", "latin-1"):
            try:
                char = rest[:4].decode(encoding, "strict" if encoding == "latin-1" else "ignore")[:1]
            except UnicodeDecodeError:
                continue
            if char:
                break
        named = {"\u00a0": "a blank that does not break", "\u2018": "a curly quote", "\u2019": "a curly quote",
                 "\u201c": "a curly quote", "\u201d": "a curly quote", "\u2013": "a dash", "\u2212": "a minus sign of print"}
        return f"{named.get(char, 'no ASCII')}: such bytes stand in comments and literals alone"
    if rest[0] < 32 or rest[0] == 127:
        return f"the byte {rest[0]} is no blank of C"
    return f"no token of C begins with `{chr(rest[0])}`"


# ---- where the tokens have no reading

EXTENSIONS = frozenset("asm __asm __asm__ __attribute__ __attribute __extension__ __inline __inline__ __restrict "
                       "__restrict__ __const __signed__ __volatile__ __typeof__ typeof _Static_assert _Noreturn _Alignas "
                       "_Atomic _Generic _Thread_local __builtin_va_list __thread bool".split())


def of_extension(word):
    if word == "bool":
        return "there is no `bool`: take `int` or `unsigned char`"
    return f"`{word}` is no word of the language; where it comes from a header, declare what the text needs of it instead"


def of_syntax(tokens, at, place):
    """What to do about a refused token."""
    k = tokens.at(at)
    opened = tokens.open_at(k)
    if k == len(tokens.all):
        if opened:
            mark, where = opened[-1]
            return f"the text ends, and `{mark}` at {place(where)} is still open"
        return "the text ends within a declaration: `;` or a body is missing"
    kind, text, _ = tokens.all[k]
    before = tokens.all[k - 1] if k else ("none", "", 0)
    first = tokens.all[0][1] if tokens.all else ""
    if text in LEFT_OUT:
        return LEFT_OUT[text]
    if text == "long" and "long" in [it[1] for it in tokens.all[max(0, k - 3):k]]:
        return "there is no `long long`, and `long` has 8 bytes"
    for word in (text, before[1]):
        if word in EXTENSIONS:
            return of_extension(word)
    if text == "...":
        return "there are no functions with any number of parameters"
    if before[0] == "word" and before[1] not in KEYWORDS and (kind == "word" or text == "*" and not opened):
        return f"`{before[1]}` is no type here: no `typedef` above declares it at file scope"
    if kind == "word" and not opened and text not in KEYWORDS:
        if before[1] in ("", ";", "}"):
            return f"a declaration begins with a type, and `{text}` is none: no `typedef` above declares it"
    if text in ("static", "extern", "typedef") and opened:
        return f"`{text}` stands at file scope alone"
    if text == "{" and before[1] == "=":
        return "a local has no list in braces: assign its parts, or take it to file scope"
    if text == "{" and opened and (before[1] in ("struct", "enum") or tokens.all[k - 2][1] in ("struct", "enum")):
        return "the body of a struct or an enumeration stands at file scope alone"
    if text in (".", "[") and before[1] in ("{", ","):
        return "an initialiser names no member or element"
    if text == "(" and before[1] in (")", "]"):
        return "a call names its function: there are no calls through pointers"
    if text == ":" and before[0] == "word":
        return "there are no labels but `case` and `default`, and no bit fields"
    if text in ("case", "default"):
        return "a label stands right in the braces of a `switch`, not in a block or loop within it"
    if before[1] in ("{", "}") and kind != "mark" and k > 1 and first and "switch" in {
            it[1] for it in tokens.all[max(0, k - 12):k]}:
        return "in the braces of a `switch` a label stands first"
    if before[0] == "none":
        return "a text begins with a declaration"
    line_ends = b"\n" in tokens.data[before[2] + len(before[1]):at]
    if line_ends and before[1] not in (";", "}", "{"):
        behind = place(before[2] + len(before[1]))
        return f"what stands in front of this is not at its end: is a `;` missing at {behind}?"
    return f"no text of the language has `{text}` here (docs/language.md, \"The grammar\")"


# ---- typing, limits and runs

LIBRARY = frozenset("""printf puts scanf fprintf sprintf malloc calloc free memcpy memset memmove strlen strcmp strcpy
strcat strchr fopen fclose fputs fgets fputc fgetc putc getc abs atoi rand srand assert qsort""".split())
MACROS = {"NULL": "0", "EOF": "-1", "EXIT_SUCCESS": "0", "EXIT_FAILURE": "1", "true": "1", "false": "0",
          "INT_MAX": "2147483647", "INT_MIN": "(-2147483647 - 1)", "CHAR_BIT": "8"}

TYPING = {
    "UnknownName": "no declaration of this name is in scope",
    "Redeclared": "this name is declared already, as something else, or a second time with a body or an initialiser",
    "NotDefined": "this is declared and never defined: a text is a whole program, and nothing is linked to it",
    "BadType": "what is declared has no complete object type, or one that is too large or too deep",
    "NotConstant": "a constant has to stand here",
    "BadOperand": "an operator does not take an operand of this type",
    "NotAssignable": "this is no place that can be assigned to, or whose address can be taken",
    "BadConversion": "this value is not converted to the type that is wanted; between a pointer and another one a cast is needed, "
                     "and between a pointer and an integer there is none",
    "NotFunction": "what is called is no function; there are no calls through pointers",
    "BadCall": "the function has another number of parameters",
    "NoMember": "the struct has no such member, or has it twice",
    "BadLabel": "this `switch` has the label already",
    "BadJump": "nothing is around this that it could leave or go on with",
    "BadReturn": "a function of type void returns no value, and any other one does",
    "BadLiteral": "no integer type holds this number",
    "BadInit": "the initialiser does not fit what it stands for; a local array has none",
}
LIMITS = {
    "text": "the file is too long: a C text has at most 4,194,304 bytes, an assembly text 67,108,864",
    "weight": "the program is too large: its weight is at most 131,072",
    "data": "globals and literals, and the locals of a function that stand in memory, have at most 67,108,864 bytes",
}
TRAPS = {"1": "the program divided by 0", "2": "the program called `abort`",
         "3": "a signed result was beyond its type"}
IMAGE = [(4, "the file does not begin with `MSA1`: it is no image"), (8, "the version is 1 or 2"),
         (12, "the number of words"), (16, "the number of bytes of data"), (20, "the entry")]
OTHERS = {
    "usage": "`msc help` prints the commands",
    "file": "the file could not be read",
    "memory": "memory is short, or more is open at one place than is taken: 1,024 constructs in one another, or a tree "
              "of 2,048 levels, as long chains of `+` or `,` and deep brackets make",
}


def of_main(tokens, place):
    """What to do where `main` is missing."""
    depth = 0
    for k, (kind, text, at) in enumerate(tokens.all):
        if kind == "mark" and text in "([{":
            depth += 1
        elif kind == "mark" and text in ")]}":
            depth = max(0, depth - 1)
        if depth or text != "main" or k + 1 == len(tokens.all) or tokens.all[k + 1][1] != "(":
            continue
        return f"the `main` at {place(at)} is no such function: it is `int main(void)`, has a body, and takes no parameters"
    return "no `main` is defined: a program has `int main(void) { .. }`"


def of_typing(kind, tokens, at, place):
    """What to do about a fault of typing."""
    page = f"docs/faults/{kind}.md"
    if kind == "MissingMain":
        return f"{of_main(tokens, place)} ({page})"
    k = tokens.at(at)
    name = tokens.all[k][1] if k < len(tokens.all) else ""
    said = TYPING[kind]
    if kind in ("UnknownName", "NotDefined"):
        if name in MACROS:
            said = f"`{name}` is a macro of a header: write `{MACROS[name]}`"
        elif name in LIBRARY:
            said = f"`{name}` is of C's library, which is not there: `putchar`, `getchar`, `abort` and `exit` are"
    return f"{said} ({page})"


def of_nesting(tokens, place):
    """Where the deepest chain of a text is, and what to do about it."""
    chain = nesting(tokens)
    whole = chain[0].whole
    longest = max(chain, key=lambda it: it.count)
    if longest.count * 2 <= whole:
        # no single statement is long: the place at which the limit is passed
        count = 0
        for passed in chain:
            count += passed.count
            if count > DEEPEST:
                break
        return passed.at, f"{whole} are open in one another, of at most {DEEPEST}, and one too many begins here: take parts of " \
            "what is around it out into functions or statements of their own"
    if longest.kinds["if"] * 3 > longest.count:
        advice = "make a `switch`, a table, or several functions of a chain of `else if`"
    elif longest.kinds["?"] * 3 > longest.count:
        advice = "make a `switch` or a table of a chain of `? :`"
    else:
        advice = "cut the chain: compute a part of it in a statement of its own"
    counts = " and ".join(f"{count} times `{text}`" for text, count in longest.kinds.most_common(2))
    return longest.at, f"of the {whole} that are open at once, of at most {DEEPEST}, {longest.count} stand in the statement " \
        f"that begins here, among them {counts}: {advice}"


class Advice:
    """A refusal by its line, with what to do about it."""

    def __init__(self, line):
        words = line.removeprefix("msc: ").split()
        self.words, self.said, self.found = words, [], None
        self.number = int(words[-1]) if words and re.fullmatch("[0-9]{1,20}", words[-1]) else None
        self.kind = words[0] if words else ""
        self.is_place = len(words) == 3 and words[1] == "at" and (
            self.kind in ("lex", "syntax", "MissingMain") or self.kind in TYPING)

    def is_of_assembly(self):
        return self.words[:2] == ["assembly", "line"] and self.number is not None

    def needs_text(self):
        return self.is_place or self.words[:2] == ["limit", "nesting"]

    def without_text(self):
        """What is to be said by the line alone."""
        return self.of_line() if not self.needs_text() else []

    def of_line(self):
        if self.kind == "limit" and self.words[1:2] and self.words[1] in LIMITS:
            return [f"    {LIMITS[self.words[1]]}"]
        if self.kind == "trap" and str(self.number) in TRAPS:
            return [f"    {TRAPS[str(self.number)]}"]
        if self.words[:2] == ["image", "at"] and self.number is not None:
            field = next((said for end, said in IMAGE if self.number < end), "the words or the bytes are too few or too many")
            return [f"    {field} (docs/formats.md, \"Image\")"]
        if self.kind == "budget" and self.number is not None:
            return ["    it still runs: `--budget NUMBER` lets it go on for longer"]
        if len(self.words) == 1 and self.kind in OTHERS:
            return [f"    {OTHERS[self.kind]}"]
        return []

    def read(self, tokens, place):
        """Finds out what to do, by the text."""
        if self.words[:2] == ["limit", "nesting"]:
            self.found, said = of_nesting(tokens, place)
        elif self.kind == "lex":
            self.found, said = self.number, of_lex(tokens.data, self.number)
        elif self.kind == "syntax":
            self.found, said = self.number, of_syntax(tokens, self.number, place)
        else:
            self.found, said = self.number, of_typing(self.kind, tokens, self.number, place)
        self.said = [f"    {said}"]

    def offset(self):
        return self.found

    def lines(self):
        return self.said or self.of_line()
