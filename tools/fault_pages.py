#!/usr/bin/env python3
"""Writes docs/faults/: for each kind of typing fault a page with all the definitions that find it.

    tools/fault_pages.py            writes the pages and the index
    tools/fault_pages.py --check    fails where docs/faults/ is not what would be written

A fault is made with its kind, so a definition finds a kind where it names the constructor, and all definitions under
specs/ (those of specs/model/ apart that the faults of a unit do not reach) are looked through for it, by what each
file's `use` lines say that a name stands for. It fails where a word has the name of a kind and does not stand for one,
where the rows of tools/fault_rules.py do not name the same definitions as were found, and where one that was found is
not reached from the faults of a unit.

Run it in the repository.
"""

import collections
import re
import sys
import textwrap

from fault_rules import NOTED, RULES
from trusted import BLOCK, TOP, Item, Repository, words_of

FOLDER = TOP / "docs" / "faults"
CODE = ("c_typing_faults", "faults", "Kind")
KIND = Item("c_typing_faults", "code", "faults", "Kind")
ORDER = ("c_typing_faults", "Faults")
ROOT = Item("c_typing_units", "specs", "Units", "faults_of")
# types of the code by which a definition hands on what was asked, beside `Bool`, numbers and `Option`
ANSWERS = {"PriorMeaning", "MemberMeaning", "InitialiserItems", "Jumps", "Labels"}


class Found(Exception):
    """What stands against a page."""


# ---- the text of a definition

class Definition:
    """A definition of specs/: its lines, and what its type and its equations name."""

    def __init__(self, repository, item):
        self.repository, self.item = repository, item
        self.file = repository.specs[item.crate, item.module]
        lines = self.file.nodes[item.name].lines
        self.first, self.last = min(lines), max(lines)
        self.type, self.patterns, self.results = self.parts()

    def parts(self):
        """The type, the words left of `=`, and those on its right."""
        clean = [self.file.clean[i] for i in range(self.first, self.last + 1)]
        head = next(i for i, line in enumerate(clean) if line.strip())
        indent = len(clean[head]) - len(clean[head].lstrip())
        names = [self.item.name, "«" + self.item.name + "»"]
        starts = [i for i in range(head + 1, len(clean)) if clean[i].strip()
                  and len(clean[i]) - len(clean[i].lstrip()) == indent and clean[i].split()[0] in names]
        if not starts:
            return " ".join(" ".join(clean).split()), set(), words_of(" ".join(clean))
        kind = " ".join(" ".join(clean[: starts[0]]).split())
        left, right = set(), set()
        for at, start in enumerate(starts):
            equation = " ".join(clean[start : starts[at + 1] if at + 1 < len(starts) else len(clean)])
            sign = equals_in(equation)
            left |= words_of(equation[:sign])
            right |= words_of(equation[sign:])
        return kind, left, right

    def result(self):
        """The type of what it gives."""
        kind = self.type.partition(" : ")[2]
        depth = at = 0
        for i, c in enumerate(kind):
            depth += (c in "({") - (c in ")}")
            if c == "→" and depth == 0:
                at = i + 1
        return kind[at:].strip()

    def arguments(self):
        """The words of the types that it takes."""
        return words_of(self.type.partition(" : ")[2][: -len(self.result()) or None])

    def is_condition(self):
        """Whether it says what is the case, and makes no part of a typed tree."""
        result = self.result()
        if not result or "×" in result:
            return False
        word = result.split()[0]
        if word == "Option":
            return not {"TypedExpression", "TExpr", "x.TExpr"} & words_of(result)
        return word in {"Bool", "ℕ"} | ANSWERS

    def around(self):
        """The lines of the block in which it stands, with the comment above."""
        indent = len(self.file.lines[self.last]) - len(self.file.lines[self.last].lstrip())
        for at in range(self.first - 1, -1, -1):
            line = self.file.clean[at]
            if indent and line.strip() and len(line) - len(line.lstrip()) == 0:
                indent = 0
                if BLOCK.match(line.strip()):
                    return comment_above(self.file.lines, at) + [self.file.lines[at]]
        return []

    def section(self):
        """The heading under which it stands."""
        for at in range(self.first, -1, -1):
            if self.file.lines[at].startswith("-- ----"):
                lines = self.file.lines[at:]
                return lines[: next(i for i, line in enumerate(lines) if not line.startswith("--"))]
        return []

    def text(self):
        return self.file.lines[self.first : self.last + 1]


def equals_in(equation):
    """Where the `=` of an equation stands."""
    depth = 0
    for i, c in enumerate(equation):
        depth += (c in "({[") - (c in ")}]")
        if depth == 0 and equation[i : i + 3] == " = ":
            return i
        if depth == 0 and equation[i:].rstrip() == " =":
            return i
    return len(equation)


def comment_above(lines, at):
    first = at
    while first > 0 and lines[first - 1].startswith("--") and not lines[first - 1].startswith("-- ----"):
        first -= 1
    return lines[first:at]


# ---- who names a kind

class Kinds:
    """The kinds in the order of their numbers, and the definitions that name each."""

    def __init__(self, repository):
        self.repository = repository
        file = repository.specs.get((ROOT.crate, ROOT.module))
        if file is None or ROOT.name not in file.nodes:
            raise Found(f"there is no {ROOT.name} in {ROOT.crate}")
        self.reached = {item for item in repository.reached([ROOT]) if item.kind == "specs"}
        self.definitions = {
            item: Definition(repository, item)
            for (crate, module), file in repository.specs.items()
            for item in [Item(crate, "specs", module, name) for name in file.nodes]
            if module.split(".")[0] != "model" or item in self.reached
        }
        self.words = self.words_of_the_code()
        self.finders = {kind: set() for kind in self.words}
        self.readers, self.carriers = set(), set()
        for item, definition in self.definitions.items():
            self.look_through(item, definition)
        for file in repository.specs.values():
            self.look_between(file)
        self.numbers = self.numbers_of_kinds()
        self.neighbours = {item: self.named_by(item) for item in self.reached}
        self.users = collections.defaultdict(set)
        for item in self.reached:
            for other in self.neighbours[item]:
                self.users[other].add(item)
        self.judge()

    def words_of_the_code(self):
        """The comment of each kind where the code declares them."""
        text = self.repository.code[CODE[0], CODE[1]].text
        body = re.search(r"pub enum " + CODE[2] + r" \{(.*?)\n\}", text, re.S)[1]
        found = re.findall(r"((?:\s*///[^\n]*\n)+)\s*(\w+),", body)
        return {name: " ".join(re.sub(r"\s*///", "", comment).split()) for comment, name in found}

    def kind_of(self, file, word):
        """The kind for which a word of a file stands, `Kind` for their type, None for anything else."""
        last = word.split(".")[-1]
        name = file.names[word][1] if word in file.names else last
        if KIND in self.repository.imported(file.names, word):
            if name in self.words or name == KIND.name or word in file.names and name is None:
                return name
            raise Found(f"{file.path}: {word} stands for a kind, and it is not seen for which")
        if (last in self.words or name in self.words) and not file.resolve(last):
            raise Found(f"{file.path}: {word} has the name of a kind, and stands for nothing that is known")
        return None

    def look_through(self, item, definition):
        file = definition.file
        for word in file.nodes[item.name].words:
            kind = self.kind_of(file, word)
            if kind == KIND.name:
                self.carriers.add(item)
            elif kind and word in definition.patterns:
                self.readers.add(item)
            if kind in self.words and (word in definition.results or word not in definition.patterns):
                self.finders[kind].add(item)

    def look_between(self, file):
        """Fails where a kind is named outside all definitions."""
        known = set().union(*(node.lines for node in file.nodes.values()))
        for at, line in enumerate(file.clean):
            for word in words_of(line) if at not in known else ():
                if self.kind_of(file, word) in self.words:
                    raise Found(f"{file.path}: it is not seen in which definition {word} stands")

    def numbers_of_kinds(self):
        """The number of each kind, as `kind_number` has it: the one reader in the module that orders faults."""
        readers = [item for item in self.readers if (item.crate, item.module) == ORDER]
        if len(readers) != 1:
            raise Found(f"{ORDER[1]} of {ORDER[0]} does not number the kinds by one definition")
        text = "\n".join(self.definitions[readers[0]].text())
        return {name: int(number) for name, number in re.findall(r"\.(\w+) = (\d+)", text)}

    def named_by(self, item):
        return {other for other in self.repository.neighbours(item) if other in self.definitions and other != item}

    def judge(self):
        """Fails where something would be missing on a page."""
        if self.repository.unknown:
            raise Found(f"not found: {', '.join(sorted(self.repository.unknown))}")
        if set(self.numbers) != set(self.words) or set(RULES) != set(self.words):
            raise Found("the kinds, their numbers and their rules do not go together")
        for kind, finders in self.finders.items():
            rows = {name for row in RULES[kind][1] for name in row[3]}
            names = {f"{item.crate}::{item.name}" for item in finders}
            if len(names) < len(finders):
                raise Found(f"{kind}: two definitions of one crate that find it have one name")
            if rows != names:
                raise Found(f"{kind}: only in the rows: {sorted(rows - names)}, only found: {sorted(names - rows)}")
            if any(user not in self.same_module(item) or self.gives_kind(user)
                   for item in finders if self.gives_kind(item) for user in self.users[item]):
                raise Found(f"{kind}: it is handed on by a name that no page follows")
            if not finders <= self.reached:
                raise Found(f"{kind}: not of the faults of a unit: {sorted(finders - self.reached)}")

    def named(self, name):
        """The definition of the faults of a unit that a name `crate::name` is."""
        items = [item for item in self.reached if f"{item.crate}::{item.name}" == name]
        if len(items) != 1:
            raise Found(f"{name} is {len(items)} definitions")
        return items[0]

    # -- what stands on a page

    def same_module(self, item):
        return {other for other in self.reached if (other.crate, other.module) == (item.crate, item.module)}

    def ways(self, finders):
        """The definitions of the same modules that lead to these."""
        found, todo = set(finders), list(finders)
        while todo:
            item = todo.pop()
            for other in (self.users[item] & self.same_module(item)) - found:
                found.add(other)
                todo.append(other)
        return found - set(finders)

    def conditions(self, items):
        """What these ask: the conditions that they name, with those of the same module that those name."""
        found = set()
        todo = [other for item in items for other in self.neighbours[item]]
        answers = ANSWERS & {word for item in items for word in self.definitions[item].arguments()}
        todo += [other for item in items for other in self.same_module(item)
                 if self.definitions[other].result() in answers]
        while todo:
            item = todo.pop()
            if item in found or item in items or not self.definitions[item].is_condition():
                continue
            found.add(item)
            todo += self.neighbours[item] & self.same_module(item)
        return found

    def askers(self, items):
        """The definitions of other modules that name these."""
        return {user for item in items for user in self.users[item] if user not in self.same_module(item)}

    def gives_kind(self, item):
        """Whether a definition gives a kind, and so is another name for it."""
        return self.definitions[item].result().split(".")[-1] == KIND.name

    def given_on(self, item):
        """A sentence on those to which such a definition gives the kind."""
        if not self.gives_kind(item):
            return ""
        return f" `{item.name}` gives the kind, and {listed(sorted(self.users[item]))} makes the fault."


# ---- pages

def path_of(item):
    return f"crates/{item.crate}/specs/{item.module.replace('.', '/')}.antt"


def link(item):
    return f"[`{path_of(item)}`](../../{path_of(item)})"


def by_module(kinds, items):
    """Items by their modules, in the order of crates.txt, and of their lines."""
    order = {crate: i for i, crate in enumerate(kinds.repository.crates)}
    modules = collections.defaultdict(list)
    for item in items:
        modules[order[item.crate], item.crate, item.module].append(item)
    for _, here in sorted(modules.items()):
        yield sorted(here, key=lambda item: kinds.definitions[item].first)


def block(kinds, items):
    """The text of definitions of one module."""
    out, heading, around = [], None, None
    for item in items:
        definition = kinds.definitions[item]
        if out:
            out.append("")
        if definition.section() != heading:
            heading = definition.section()
            out += heading + [""] if heading else []
        if definition.around() != around:
            around = definition.around()
            out += around
        out += definition.text()
    return ["```agda", *out, "```", ""]


def module_part(kinds, items, finders=()):
    """A module with definitions of it: where it is, what its head says, which of them find the kind, and their text."""
    head = []
    for line in kinds.definitions[items[0]].file.lines:
        if not line.startswith("--") or line.startswith("-- ----"):
            break
        head.append(line[2:].strip())
    out = [f"### {link(items[0])}", "", " ".join(head), ""]
    found = [item for item in items if item in finders]
    if found:
        out += [f"It is found by {listed(found)}." + "".join(map(kinds.given_on, found)), ""]
    return [*out, *block(kinds, items)]


def paragraph(text):
    return [*textwrap.wrap(" ".join(text.split()), 118, break_long_words=False, break_on_hyphens=False), ""]


def listed(items):
    return ", ".join(f"`{item.name}`" for item in items)


def page(kinds, kind):
    head, rows = RULES[kind]
    finders = kinds.finders[kind]
    ways = kinds.ways(finders)
    askers = kinds.askers(finders | ways)
    near = {item for item in askers if not kinds.definitions[item].around()}
    asked = kinds.conditions(finders | ways | near) - ways - near
    noted = {kinds.named(name) for name in NOTED.get(kind, [])}
    shown = finders | ways | near | asked | noted
    modules = {(item.crate, item.module) for item in finders}
    beside = {item for item in shown if (item.crate, item.module) in modules}
    out = [f"# {kinds.numbers[kind]}. {kind}", "",
           f"{kinds.words[kind]} {head}", "",
           "| When | At | C99 | Found by |", "|---|---|---|---|"]
    for when, at, sections, names in rows:
        found = ", ".join("`{1}` of `{0}`".format(*name.split("::")) for name in names)
        when = when.replace("|", "\\|")
        out.append(f"| {when} | {at} | {sections} | {found} |")
    out += ["", *paragraph("""[All kinds](README.md). `tools/fault_pages.py` makes this page, and cuts what follows out
                of the files of definitions."""),
            "## All that finds it", "",
            *paragraph("""Each module with a definition that names the kind. Beside these stand those of the module
                that hand on to them what they are asked with, and the conditions that are asked.""")]
    for items in by_module(kinds, beside):
        out += module_part(kinds, items, finders)
    if shown - beside:
        out += ["## What they are asked with", "",
                *paragraph("""From other modules: what asks them, for which form, the conditions that are named, and
                    what those go by.""")]
        for items in by_module(kinds, shown - beside):
            out += module_part(kinds, items)
    rest = {other for item in shown for other in kinds.neighbours[item]} - shown - askers
    out += further("Walks over trees that ask them: ", kinds, askers - near)
    out += further("Further words: ", kinds, rest)
    return "\n".join(out).rstrip() + "\n"


def further(words, kinds, items):
    """Words that stand elsewhere, each with its place."""
    names = [f"[`{item.name}`](../../{path_of(item)})" for here in by_module(kinds, items) for item in here]
    return [words + ", ".join(names) + ".", ""] if names else []


def index(kinds):
    order = sorted(kinds.numbers, key=kinds.numbers.get)
    out = ["# The kinds of typing faults", "",
           *paragraph("""A fault of typing is a kind and a place: the offset of a token in the text (C99 5.1.1.3 asks
               for a message where a constraint is violated). The faults of a unit stand in the order of their places,
               and at one place in that of the numbers of their kinds. The same kind at one place counts once, and the
               first fault is what the compiler answers. A construct is judged only where its parts and the
               declarations of its names are without fault."""),
           *paragraph("""Each kind has a page: when a unit has the fault and where it stands, row by row, and the text
               of every definition that finds it."""),
           "| No. | Kind | What it is | Definitions |", "|---|---|---|---|"]
    for kind in order:
        number, found = kinds.numbers[kind], len(kinds.finders[kind])
        out.append(f"| {number} | [{kind}]({kind}.md) | {kinds.words[kind]} | {found} |")
    carriers = [item for item in kinds.carriers & kinds.reached if KIND.name in kinds.definitions[item].arguments()
                and item not in kinds.readers and (item.crate, item.module) != ORDER]
    out += ["", *paragraph("""In the tables of the pages `p2` is the second paragraph of a section of C99. They also say
                what is a rule of this language alone, because the standard leaves it to the compiler or this language
                leaves a form out."""),
            "## How the pages are made", "",
            *paragraph("""The definitions go by constructs: what a form of the language is, and which faults it has, is
                one definition. So a page gathers what several of them say of one kind. `tools/fault_pages.py` makes the
                pages, and `--check` says whether they are what the sources give. A page leaves out none: a fault is
                made with its kind, so only where the kind is named, and the files of definitions of all crates are
                looked through for its name. The tool also refuses a page whose table does not name exactly the
                definitions that were found."""),
            *paragraph(f"""The faults of a unit are `{ROOT.name}` ({link(ROOT)}). The following definitions are given a
                kind, and make a fault of it or hand it on.""")]
    for items in by_module(kinds, carriers):
        out += module_part(kinds, items)
    out += ["## Order", "", *paragraph("The numbers of the kinds, and the order of faults.")]
    names = kinds.repository.specs[ORDER].nodes
    for items in by_module(kinds, [Item(ORDER[0], "specs", ORDER[1], name) for name in names]):
        out += module_part(kinds, items)
    other = [item for item in kinds.readers if (item.crate, item.module) != ORDER]
    out += further("What else reads the kind of a fault: ", kinds, other)
    return "\n".join(out).rstrip() + "\n"


def main(words):
    try:
        kinds = Kinds(Repository())
        texts = {f"{kind}.md": page(kinds, kind) for kind in kinds.words} | {"README.md": index(kinds)}
    except Found as found:
        print(f"fault_pages.py: {found}", file=sys.stderr)
        return 1
    if words == ["--check"]:
        there = {path.name: path.read_text() for path in FOLDER.glob("*")} if FOLDER.is_dir() else {}
        wrong = sorted(name for name in {*there, *texts} if there.get(name) != texts.get(name))
        if wrong:
            print(f"docs/faults/ is not up to date: run tools/fault_pages.py ({', '.join(wrong)})", file=sys.stderr)
            return 1
        print("docs/faults/ is up to date")
        return 0
    FOLDER.mkdir(exist_ok=True)
    for path in FOLDER.glob("*"):
        if path.name not in texts:
            path.unlink()
    for name, text in texts.items():
        (FOLDER / name).write_text(text)
    return 0


if __name__ == "__main__":
    sys.exit(main(sys.argv[1:]))
