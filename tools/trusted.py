#!/usr/bin/env python3
"""Lists what a reader has to believe of a contract: the definitions that it reaches, file by file.

    tools/trusted.py                   writes docs/trusted.md: what the headline rests on, and then what the whole
                                       contract of msc_main rests on besides
    tools/trusted.py --check           fails where docs/trusted.md is not what would be written
    tools/trusted.py FUNCTION..        prints the same for other public functions; a name is `f`, `Type::f`
                                       or `crate::f`
    tools/trusted.py --unreached [CRATE..]
                                       prints which definitions under specs/, those of specs/model/ apart,
                                       no contract of a public item reaches

It starts at the names in a contract's clauses and signature, and goes on from each definition to the names in
it, as the `use` lines of its file tell what they stand for. A generated module stands for the code's own type,
and a type stands for its fields, its invariants, and what contracts see of it. Where a name could be a local
one too, it counts as the definition, so a list may have a definition too many and has none too few.

Run it in the repository.
"""

import collections
import re
import sys
from pathlib import Path

TOP = Path(__file__).resolve().parent.parent
CRATES = TOP / "crates"
PAGE = TOP / "docs" / "trusted.md"
ROOT = "msc_main"

Item = collections.namedtuple("Item", "crate kind module name")
# kind: "specs" for a definition of an .antt file, "code" for an item of a .rt file
HEADLINE = Item("compiler_theorem", "specs", "Correct", "IsCorrectImage")
Node = collections.namedtuple("Node", "lines words")  # the numbers of its lines, and the names in them


# ---- names

def crate_names():
    for line in (TOP / "crates.txt").read_text().splitlines():
        line = line.split("#")[0]
        if ":" in line:
            yield line.split(":")[0].split()[0]


def without_comments(text, mark):
    """The text with comments and the insides of literals blanked, so that columns and lines stay."""
    pattern = re.compile(
        r'"(?:\\.|[^"\\])*"' + (r"|b?'(?:\\.[^']*|[^'\\])'" if mark == "//" else "") + "|" + mark + r"[^\n]*",
        re.S,
    )
    return pattern.sub(lambda m: re.sub(r"[^\n]", " ", m.group()), text)


WORD = re.compile(r"[^\s(){}\[\];,«»]+")


def words_of(text):
    """The names in a piece of a definition or a clause: each with its dots, and each part between mixfix signs."""
    return set(WORD.findall(text))


def uses_in(text, start):
    """What the `use` lines bring in: for each name the module and the name there, or the module alone."""
    names, places = {}, []
    for m in re.finditer(r"^[ \t]*(?:pub )?" + start + r" ([\w.\-]+?)(?:\.\{([^}]*)\}| as ([\w\-']+))?;?[ \t]*$", text, re.M):
        path, inner, alias = m.groups()
        places.append((m.start(), m.end()))
        if inner is None:
            names[alias or path.split(".")[-1]] = (path, None)
            continue
        for part in inner.split(","):
            part = part.strip().strip("«»")
            if not part:
                continue
            name, _, other = part.partition(" as ")
            names[(other or name).strip()] = (path, name.strip())
    return names, places


def mixfix(name):
    """The signs of an operator: `◌>>=◌` is written with `>>=`."""
    return [sign for sign in name.split("◌") if sign] if "◌" in name else []


# ---- the .antt files

HEAD = re.compile(
    r"^(?:(?:abbrev|unfoldable|irreducible|private) )*(pub )?(?:(?:abbrev|unfoldable|irreducible) )*"
    r"(record |data )?(«[^»]+»|[^\s({:]+)(?=[ :])"
)
BLOCK = re.compile(r"^(?:(?:abbrev|unfoldable|irreducible) )*(?:mutual$|module _.* where$|module _ .*where$)")


class Specs:
    """One file of specs/: its definitions by name, each with its lines and the names in it."""

    def __init__(self, crate, path):
        self.crate, self.path = crate, path
        self.module = ".".join(path.relative_to(CRATES / crate / "specs").with_suffix("").parts)
        self.lines = path.read_text().split("\n")
        clean = without_comments("\n".join(self.lines), "--")
        self.names, places = uses_in(clean, "use")
        for start, end in reversed(places):
            clean = clean[:start] + re.sub(r"[^\n]", " ", clean[start:end]) + clean[end:]
        self.clean = clean.split("\n")
        self.nodes = {}
        self.parts = {}  # a constructor or a field, and the type that has it
        self.read(0, len(self.clean), 0, set())

    def read(self, begin, end, indent, around):
        """The definitions between two lines, at this indent."""
        current = None
        at = begin
        while at < end:
            line = self.clean[at]
            if not line.strip() or len(line) - len(line.lstrip()) != indent:
                if current and line.strip():
                    self.add(current, at, around)
                at += 1
                continue
            text = line.strip()
            if BLOCK.match(text):
                stop = at + 1
                while stop < end and (not self.clean[stop].strip() or len(self.clean[stop]) - len(self.clean[stop].lstrip()) > indent):
                    stop += 1
                inner = [l for l in self.clean[at + 1 : stop] if l.strip()]
                if inner:
                    self.read(at + 1, stop, len(inner[0]) - len(inner[0].lstrip()), around | words_of(text))
                current = None
                at = stop
                continue
            if re.match(r"(pub )?mod |infix[lr]? ", text):
                at += 1
                continue
            name = self.head_of(text)
            if name:
                current = name
            if current:
                self.add(current, at, around)
            at += 1

    def head_of(self, text):
        """The name that a line begins to define, if it does."""
        m = HEAD.match(text)
        if not m:
            return None
        name = m.group(3).strip("«»")
        if m.group(1) or m.group(2):
            return name
        rest = text[m.end():]
        return name if re.match(r" :( |$)", rest) or re.match(r"(?: [({][^=]*[)}])+ :( |$)", rest) else None

    def add(self, name, at, around):
        node = self.nodes.get(name)
        words = words_of(self.clean[at]) | around
        if node is None:
            first = at
            while first > 0 and self.lines[first - 1].strip().startswith("--"):
                first -= 1
            self.nodes[name] = Node({*range(first, at + 1)}, set(words))
        else:
            node.lines.add(at)
            node.words.update(words)
            m = re.match(r"\s+(?:pub )?([^\s:]+) :", self.clean[at])
            if m:
                self.parts[m.group(1).strip("«»")] = name

    def resolve(self, name):
        """The name of the definition that a name of this file stands for."""
        if name in self.nodes:
            return name
        return self.parts.get(name)


# ---- the .rt files

OPEN, CLOSE = "([{", ")]}"


def matching(text, at):
    """The place of the bracket that closes the one here."""
    depth = 0
    for i in range(at, len(text)):
        if text[i] in OPEN:
            depth += 1
        elif text[i] in CLOSE:
            depth -= 1
            if depth == 0:
                return i
    return len(text) - 1


CLAUSE = re.compile(r"(?:requires|ensures|decreases|returns|aborts)\*?(?:\s+[\w\-']+)?\s*$")


class Code:
    """One .rt file: its items by name, each with the lines and the names of what a contract sees of it."""

    def __init__(self, crate, path):
        self.crate, self.path = crate, path
        parts = path.relative_to(CRATES / crate / "src").with_suffix("").parts
        self.module = "" if parts in (("lib",), ("main",)) else ".".join(parts)
        self.text = path.read_text()
        self.clean = without_comments(self.text, "//")
        self.ghosts, places = uses_in(self.clean, "ghost use")
        body = self.clean
        for start, end in reversed(places):
            body = body[:start] + re.sub(r"[^\n]", " ", body[start:end]) + body[end:]
        for m in reversed(list(re.finditer(r"#!?(?=\[)", body))):
            end = matching(body, m.end()) + 1
            body = body[: m.start()] + re.sub(r"[^\n]", " ", body[m.start() : end]) + body[end:]
        # what stands after `by` beside an invariant is a proof that the invariant has one proof at most
        for m in reversed(list(re.finditer(r"(?<=\})\s*by\s+(?=\{)", body))):
            end = matching(body, m.end()) + 1
            body = body[: m.start()] + re.sub(r"[^\n]", " ", body[m.start() : end]) + body[end:]
        self.body = body
        self.uses, self.exports = {}, {}
        self.public_modules, self.modules = set(), set()
        self.nodes = {}  # name: Node; methods are `Type::f`
        self.public = set()
        self.read()

    def line(self, at):
        return self.clean.count("\n", 0, at)

    def span(self, start, end):
        first = self.line(start)
        lines = self.text.split("\n")
        while first > 0 and re.match(r"\s*(///|#\[)", lines[first - 1]):
            first -= 1
        return set(range(first, self.line(end) + 1))

    def add(self, name, spans, public):
        lines, words = set(), set()
        for start, end in spans:
            lines |= self.span(start, end)
            words |= words_of(re.sub(r"::", ".", re.sub(r"[&*<>|?!:=+]", lambda m: m.group() if m.group() == ":" else " ", self.body[start : end + 1])).replace(":", " ").replace("..", " "))
        old = self.nodes.get(name)
        if old:
            old.lines.update(lines)
            old.words.update(words)
        else:
            self.nodes[name] = Node(lines, words)
        if public:
            self.public.add(name)

    def contract_end(self, at):
        """Where the contract of the function that begins here ends: before its body, or at its semicolon."""
        i, last = at, at
        while i < len(self.body):
            c = self.body[i]
            if c == ";":
                return i
            if c == "{" and not CLAUSE.search(self.body[last:i]):
                return i - 1
            if c in OPEN:
                i = last = matching(self.body, i)
            i += 1
        return i

    def read(self):
        self.read_items(0, len(self.body), None, False)

    def read_items(self, at, end, owner, all_public):
        item = re.compile(
            r"(pub(?:\([^)]*\))?\s+)?(?:(?:const|unsafe)\s+)*(fn|struct|enum|trait|impl|const|static|type|use|mod)\b|macro_rules!|ghost\b|(?:[a-z_]+!)"
        )
        while at < end:
            m = item.search(self.body, at, end)
            if not m:
                return
            word, start = m.group(2), m.start()
            public = (m.group(1) or "").strip() == "pub" or all_public
            if word == "fn":
                name = re.match(r"\s*(\w+)", self.body[m.end():]).group(1)
                stop = self.contract_end(m.end())
                self.add(f"{owner}::{name}" if owner else name, [(start, stop)], public)
                at = stop + 1
                if at < end and self.body[at] == "{":
                    at = matching(self.body, at) + 1
            elif word == "impl":
                at = self.read_impl(start, m.end())
            elif word == "use":
                stop = self.body.index(";", start)
                self.read_use(self.body[m.end() : stop], public)
                at = stop + 1
            elif word == "mod":
                name = re.match(r"\s*(\w+)", self.body[m.end():]).group(1)
                self.modules.add(name)
                if public:
                    self.public_modules.add(name)
                at = self.body.index(";", start) + 1
            elif word in ("struct", "enum", "trait"):
                at = self.read_type(start, m.end(), public)
            elif word in ("const", "static", "type"):
                name = re.match(r"\s*(\w+)", self.body[m.end():]).group(1)
                stop = self.body.find(";", start)
                self.add(f"{owner}::{name}" if owner else name, [(start, stop)], public)
                at = stop + 1
            else:
                at = m.end()
                opened = re.compile(r"[({]").search(self.body, at)
                at = matching(self.body, opened.start()) + 1 if opened and m.group().endswith("!") else at

    def read_type(self, start, after, public):
        name = re.match(r"\s*(\w+)", self.body[after:]).group(1)
        i = after
        while self.body[i] not in "{;(":
            i += 1
        stop = i if self.body[i] == ";" else matching(self.body, i)
        self.add(name, [(start, stop)], public)
        return stop + 1

    def read_impl(self, start, after):
        opened = self.body.index("{", after)
        stop = matching(self.body, opened)
        head = re.sub(r"^\s*<[^{]*?>(?=\s)", "", self.body[after:opened])
        of_trait, _, of = head.rpartition(" for ")
        name = re.match(r"[\s&]*(?:\w+::)*(\w+)", of).group(1)
        if of_trait.strip().startswith("Model"):
            self.add(name, [(start, stop)], False)
        elif of_trait:
            trait = re.match(r"\s*(?:\w+::)*(\w+)", of_trait).group(1)
            owner = f"{name} as {trait}"
            for m in re.finditer(r"\bghost\s+\w+\s*=\s*\{", self.body[opened:stop]):
                begin = opened + m.start()
                self.add(owner, [(begin, matching(self.body, opened + m.end() - 1))], True)
            self.read_items(opened + 1, stop, owner, True)
        else:
            self.read_items(opened + 1, stop, name, False)
        return stop + 1

    def read_use(self, text, public):
        """Brings in the names of a `use` item, with braces and `as`."""
        def spread(prefix, part):
            part = part.strip()
            m = re.match(r"([\w:]*?)(?:::)?\{(.*)\}$", part, re.S)
            if m:
                depth, piece = 0, ""
                for c in m.group(2) + ",":
                    if c == "," and depth == 0:
                        if piece.strip():
                            spread(prefix + [w for w in m.group(1).split("::") if w], piece)
                        piece = ""
                        continue
                    depth += (c == "{") - (c == "}")
                    piece += c
                return
            path, _, alias = part.partition(" as ")
            path = prefix + [w for w in path.strip().split("::") if w]
            if path[-1] == "self":
                path = path[:-1]
            name = alias.strip() or path[-1]
            self.uses[name] = path
            if public:
                self.exports[name] = path
        spread([], text)


# ---- the repository

class Repository:
    def __init__(self):
        self.crates = list(crate_names())
        self.specs, self.code = {}, {}
        self.unknown = set()  # names that are imported from our crates, and that this script does not find there
        for crate in self.crates:
            folder = CRATES / crate
            for path in sorted((folder / "specs").rglob("*.antt")):
                file = Specs(crate, path)
                self.specs[crate, file.module] = file
            for path in sorted((folder / "src").rglob("*.rt")):
                if "tests" in path.relative_to(folder).with_suffix("").parts:
                    continue
                file = Code(crate, path)
                self.code[crate, file.module] = file

    # -- what a name stands for

    def generated(self, crate, path, name):
        """The item of the code that a generated module stands for."""
        parts = [p for p in path if not p.startswith("The")]
        for cut in range(len(parts), -1, -1):
            file = self.code.get((crate, ".".join(parts[:cut])))
            if file is None:
                continue
            for candidate in (parts[cut : cut + 1] or [name]):
                if candidate in file.nodes:
                    return [Item(crate, "code", file.module, candidate)]
                for impl in file.nodes:
                    if impl.replace(" as ", "") == candidate:
                        return [Item(crate, "code", file.module, impl)]
            if name in file.nodes:
                return [Item(crate, "code", file.module, name)]
        return []

    def at(self, path, name):
        """The items that a name of a module stands for."""
        parts = path.split(".")
        if parts[0] != "Rattle" or len(parts) < 3 or parts[2] != "specs" or parts[1] not in self.crates:
            return []
        crate, rest = parts[1], parts[3:]
        if rest and rest[0] in ("declared", "contracts"):
            items = self.generated(crate, rest[1:], name)
        else:
            file = self.specs.get((crate, ".".join(rest)))
            for cut in range(len(rest) - 1, -1, -1) if file is None else []:
                above = self.specs.get((crate, ".".join(rest[:cut]) or "Lib"))
                if above and rest[cut] in above.names:
                    # a module of another place that this one passes on
                    return self.at(".".join([above.names[rest[cut]][0], *rest[cut + 1 :]]), name)
            found = file.resolve(name) if file and name else None
            items = [Item(crate, "specs", file.module, found)] if found else []
            if not found and file and name in file.names and file.names[name][1]:
                return self.at(*file.names[name])
        if name and not items:
            self.unknown.add(f"{path}.{name}")
        return items

    def imported(self, names, word):
        """The items that a word stands for by the imports of a file."""
        parts = word.split(".")
        if word in names:
            path, name = names[word]
            return self.at(path, name)
        if parts[0] in names:
            path, name = names[parts[0]]
            if name is None:
                return self.at(path, parts[1] if len(parts) > 1 else None)
            return self.at(path, name)
        return []

    def in_code(self, crate, path, seen=()):
        """The item that a path of the code stands for."""
        if (crate, tuple(path)) in seen:
            return []
        seen = (*seen, (crate, tuple(path)))
        for cut in range(len(path), -1, -1):
            file = self.code.get((crate, ".".join(path[:cut])))
            if file is None:
                continue
            rest = path[cut:]
            if not rest:
                return []
            if rest[0] in file.nodes:
                return [Item(crate, "code", file.module, rest[0])]
            if rest[0] in file.exports:
                return self.by_use(file, file.exports[rest[0]] + rest[1:], seen)
        return []

    def by_use(self, file, path, seen=()):
        here = file.module.split(".") if file.module else []
        if path[0] == "crate":
            return self.in_code(file.crate, path[1:], seen)
        if path[0] == "self":
            return self.in_code(file.crate, here + path[1:], seen)
        if path[0] == "super":
            return self.in_code(file.crate, here[:-1] + path[1:], seen)
        if path[0] in self.crates:
            return self.in_code(path[0], path[1:], seen)
        return self.in_code(file.crate, here + path, seen)

    def neighbours(self, item):
        """The items that the text of this one names."""
        found = set()
        if item.kind == "specs":
            file = self.specs[item.crate, item.module]
            node = file.nodes[item.name]
            signs = {sign: name for name in [*file.nodes, *file.names] for sign in mixfix(name)}
            for word in node.words:
                word = signs.get(word, word)
                head = word.split(".")[0]
                local = file.resolve(word) or file.resolve(head)
                if local:
                    found.add(Item(item.crate, "specs", item.module, local))
                found.update(self.imported(file.names, word))
            return found
        file = self.code[item.crate, item.module]
        node = file.nodes[item.name]
        signs = {sign: name for name in file.ghosts for sign in mixfix(name)}
        for word in node.words:
            word = signs.get(word, word)
            head = word.split(".")[0]
            found.update(self.imported(file.ghosts, word))
            if head in file.nodes:
                found.add(Item(item.crate, "code", item.module, head))
            elif head in file.uses:
                found.update(self.by_use(file, file.uses[head] + word.split(".")[1:]) or self.by_use(file, file.uses[head]))
        former = "formers." + (item.module + "." if item.module else "") + item.name
        if (item.crate, former) in self.specs:
            found.update(Item(item.crate, "specs", former, name) for name in self.specs[item.crate, former].nodes)
        owner = item.name.split("::")[0].split(" as ")[0]
        if owner != item.name and owner in file.nodes:
            found.add(Item(item.crate, "code", item.module, owner))
        return found

    def reached(self, roots):
        seen, todo = set(roots), list(roots)
        while todo:
            for item in self.neighbours(todo.pop()):
                if item not in seen:
                    seen.add(item)
                    todo.append(item)
        return seen

    def library(self, items):
        """The words of the standard library that the definitions name, by module."""
        words = collections.defaultdict(set)
        for item in items:
            file = (self.specs if item.kind == "specs" else self.code)[item.crate, item.module]
            names = file.names if item.kind == "specs" else file.ghosts
            signs = {sign: name for name in names for sign in mixfix(name)}
            for word in file.nodes[item.name].words:
                word = signs.get(word, word)
                if word in names and not names[word][0].startswith(tuple(f"Rattle.{c}." for c in self.crates)):
                    path, name = names[word]
                    words[path].add(name or "")
        return words

    # -- the public items

    def is_public_module(self, crate, module):
        parts = module.split(".") if module else []
        for cut in range(len(parts)):
            above = self.code.get((crate, ".".join(parts[:cut])))
            if above is None or parts[cut] not in above.public_modules:
                return False
        return True

    def public_items(self, crate):
        """The items of a crate that another may name, with the methods of its public types."""
        found = set()
        for (name, module), file in self.code.items():
            if name != crate:
                continue
            if self.is_public_module(crate, module):
                found.update(Item(crate, "code", module, n) for n in file.public if "::" not in n and " as " not in n)
                for path in file.exports.values():
                    found.update(self.by_use(file, path))
        for (name, module), file in self.code.items():
            if name != crate:
                continue
            for n in file.public:
                owner = n.split("::")[0].split(" as ")[0]
                if owner != n and self.is_found(found, file, owner):
                    found.add(Item(crate, "code", module, n))
        return found

    def is_found(self, found, file, owner):
        if owner in file.nodes and Item(file.crate, "code", file.module, owner) in found:
            return True
        return owner in file.uses and any(item in found for item in self.by_use(file, file.uses[owner]))

    def functions(self, name):
        """The public functions of a name."""
        crate, _, rest = name.partition("::")
        within = [crate] if rest and crate in self.crates else self.crates
        name = rest if rest and crate in self.crates else name
        return sorted(item for c in within for item in self.public_items(c)
                      if item.name == name or item.name.endswith("::" + name))


# ---- what is written

def row(words):
    return "| " + " | ".join(str(w) for w in words) + " |"


def definitions_of(repository, items, heading):
    """The definitions among items, file by file, below a heading."""
    table, total, files = [], 0, 0
    for crate in repository.crates:
        for (name, module), file in sorted(repository.specs.items()):
            if name != crate:
                continue
            here = [item.name for item in items if item.kind == "specs" and (item.crate, item.module) == (crate, module)]
            if not here:
                continue
            lines = len(set().union(*(file.nodes[n].lines for n in here)))
            total, files = total + lines, files + 1
            ordered = sorted(here, key=lambda n: min(file.nodes[n].lines))
            whole = "all" if len(here) == len(file.nodes) else " ".join(f"`{n}`" for n in ordered)
            table.append(row([f"`crates/{crate}/specs/{module.replace('.', '/')}.antt`", lines, whole]))
    return [f"{heading}: {total} lines in {files} files", "",
            "Lines are those of the definitions that are reached, with the comments above them.", "",
            row(["File", "Lines", "Definitions"]), "|---|---|---|", *table, ""]


def types_of(repository, items, heading, said):
    """The items of the code among items, file by file."""
    table, total = [], 0
    for crate in repository.crates:
        for (name, module), file in sorted(repository.code.items()):
            if name != crate:
                continue
            here = [item.name for item in items if item.kind == "code" and (item.crate, item.module) == (crate, module)]
            if not here:
                continue
            lines = len(set().union(*(file.nodes[n].lines for n in here)))
            total += lines
            ordered = sorted(here, key=lambda n: min(file.nodes[n].lines))
            table.append(row([f"`{file.path.relative_to(TOP)}`", lines, " ".join(f"`{n}`" for n in ordered)]))
    return [f"{heading}: {total} lines", "", *said, "", row(["File", "Lines", "Items"]), "|---|---|---|", *table, ""]


def words_of_libraries(repository, items):
    out = ["## Words of the libraries", "",
           "The definitions are written in these words of the toolchain's libraries, which are believed with it.", ""]
    for path, found in sorted(repository.library(items).items()):
        out.append(f"- `{path}`: " + " ".join(f"`{n}`" for n in sorted(found) if n))
    return out


SPEAK_OF = ["The definitions speak of these types, traits and constants: of their fields, their invariants, and what",
            "contracts see of them."]


def contract_of(repository, roots):
    """Where the contracts of functions stand, and how long they are."""
    lines = sum(len(repository.code[i.crate, i.module].nodes[i.name].lines) for i in roots)
    files = sorted({f"`{repository.code[i.crate, i.module].path.relative_to(TOP)}`" for i in roots})
    return f"{lines} lines of " + ", ".join(files)


def page_of_functions(repository, roots):
    """What is believed of the contracts of functions."""
    items = repository.reached(roots) - set(roots)
    names = ", ".join(f"`{item.crate}::{item.name}`" for item in roots)
    out = ["# What has to be believed", "",
           f"Made by `tools/trusted.py`, which follows the names in the contract of {names}, which is",
           f"{contract_of(repository, roots)}.", "",
           *definitions_of(repository, items, "## Definitions"),
           *types_of(repository, items, "## The code's own types", SPEAK_OF),
           *words_of_libraries(repository, items | set(roots))]
    return "\n".join(out) + "\n"


def page(repository):
    """What is believed of the headline, and then what the whole contract of `msc_main` rests on besides."""
    roots = repository.functions(ROOT)
    headline = repository.reached([HEADLINE])
    items = repository.reached(roots) - set(roots) - headline
    names = ", ".join(f"`{item.crate}::{item.name}`" for item in roots)
    out = ["# What has to be believed", "",
           f"Made by `tools/trusted.py`. The first part follows the names in `{HEADLINE.name}` of",
           f"`crates/{HEADLINE.crate}/specs/{HEADLINE.module}.antt`: what it is for an image to be right for a C text, which is the first",
           f"thing that {names} says of an image. The second part has what the whole contract of that function rests",
           "on besides: how the image was made, pass by pass, and what the other commands do. These definitions say what is",
           "claimed, so a reader has to believe that they say what they are meant to. All else in the repository is checked by",
           "the toolchain, or is nothing that this rests on.", "",
           "## The headline", "",
           *definitions_of(repository, headline, "### Definitions of the headline"),
           *types_of(repository, headline, "### The code's own types in the headline", SPEAK_OF),
           "## The whole contract", "",
           f"The contract itself is {contract_of(repository, roots)}.", "",
           *definitions_of(repository, items, "### Definitions besides"),
           *types_of(repository, items, "### The code's own types besides", SPEAK_OF),
           *words_of_libraries(repository, items | headline | set(roots))]
    return "\n".join(out) + "\n"


def unreached(repository, crates):
    """Prints the definitions of each crate that no contract of a public item reaches."""
    public = {c: repository.public_items(c) for c in repository.crates}
    own = {c: repository.reached(public[c]) for c in repository.crates}
    everywhere = set().union(*own.values())
    whole = 0
    for crate in crates:
        for (name, module), file in sorted(repository.specs.items()):
            if name != crate or module.split(".")[0] == "model" or module in ("Lib",) or not file.nodes:
                continue
            items = {n: Item(crate, "specs", module, n) for n in file.nodes}
            missed = [n for n, item in items.items() if item not in everywhere]
            above = [n for n, item in items.items() if item in everywhere and item not in own[crate]]
            path = f"crates/{crate}/specs/{module.replace('.', '/')}.antt"
            if len(missed) == len(items):
                whole += 1
                print(f"{path}: no public contract reaches it")
            elif missed:
                print(f"{path}: not reached: {' '.join(missed)}")
            if above:
                print(f"{path}: reached by contracts of crates above alone: {' '.join(above)}")
    print(f"{whole} files are not reached")


def main(words):
    repository = Repository()
    status = answer(repository, words)
    for name in sorted(repository.unknown):
        print(f"trusted.py: {name} is not found", file=sys.stderr)
    return status or (1 if repository.unknown else 0)


def answer(repository, words):
    if "--unreached" in words:
        crates = [w for w in words if w != "--unreached"]
        unreached(repository, crates or repository.crates)
        return 0
    if words and words != ["--check"]:
        roots = [item for word in words for item in repository.functions(word)]
        if not roots:
            print("trusted.py: there is no such public function", file=sys.stderr)
            return 64
        print(page_of_functions(repository, roots), end="")
        return 0
    text = page(repository)
    if words == ["--check"]:
        if not PAGE.is_file() or PAGE.read_text() != text:
            print("docs/trusted.md is not up to date: run tools/trusted.py", file=sys.stderr)
            return 1
        print("docs/trusted.md is up to date")
        return 0
    PAGE.write_text(text)
    return 0


if __name__ == "__main__":
    sys.exit(main(sys.argv[1:]))
