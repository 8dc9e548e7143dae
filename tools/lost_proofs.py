#!/usr/bin/env python3
"""Names the proofs that belong to nothing: the check reads them no more and says nothing of it.

    tools/lost_proofs.py [CRATE..]    prints them, of these crates or of all, and ends with status 1 where there is one

A function's proof stands in proofs/MODULE/FUNCTION/, a method's in proofs/MODULE/TYPE/METHOD/, one of a trait's in
proofs/MODULE/TYPETRAIT/METHOD/, and that of a cycle of calls in proofs/MODULE/+NAME/, by the cycle's name or the
function's own. Such a folder is lost where the module's source has no such function or cycle. A file of lemmas is lost
where neither proofs/Lib.antt names it, nor a file that is named there.
"""
import re
import sys
from pathlib import Path

from trusted import matching, without_comments

TOP = Path(__file__).resolve().parent.parent
CRATES = TOP / "crates"
OF_FUNCTIONS = {"Answers.antt", "Invariants.antt", "Proof.antt"}
BLOCK = re.compile(r"\b(impl|trait)\b([^{};]*)\{")


def owner_of(kind, head):
    """The name of the folder for the functions of a block: a type, a type with a trait, or a trait."""
    if kind == "impl":
        # the parameters of the block
        depth = 0
        for at, sign in enumerate(head.strip()) if head.strip().startswith("<") else ():
            depth += (sign == "<") - (sign == ">")
            if depth == 0:
                head = head.strip()[at + 1 :]
                break
    named = re.compile(r"[\s&]*(?:mut\s+)?(?:\w+::)*(\w+)")
    first, _, last = head.partition(" for ")
    names = [named.match(part) for part in ((last, first) if last and kind == "impl" else (first,))]
    return "".join(name[1] for name in names if name)


class Source:
    """One .rt file: its functions, each with the folder of its block, its cycles and its types."""

    def __init__(self, path):
        text = without_comments(path.read_text(), "//")
        blocks = [(m.end() - 1, matching(text, m.end() - 1), owner_of(m[1], m[2])) for m in BLOCK.finditer(text)]
        self.functions = set()
        for m in re.finditer(r"\bfn (\w+)", text):
            around = [owner for start, end, owner in blocks if start < m.start() < end]
            self.functions.add((around[-1] if around else "", m[1]))
        self.cycles = set(re.findall(r"#\[cycle\((\w+)\)\]", text))
        self.types = set(re.findall(r"\b(?:struct|enum|trait|type) (\w+)", text))


def sources_of(crate):
    """The sources of a crate by module."""
    found = {}
    for path in sorted((CRATES / crate / "src").rglob("*.rt")):
        module = path.relative_to(CRATES / crate / "src").with_suffix("").parts
        found["" if module in (("lib",), ("main",)) else "/".join(module)] = Source(path)
    return found


def is_of_function(sources, folder):
    """Whether a folder of proofs/ belongs to a function of the crate."""
    for cut in range(len(folder) - 1, -1, -1):
        source = sources.get("/".join(folder[:cut]))
        if source is None:
            continue
        *owner, name = folder[cut:]
        if name.startswith("+"):
            return not owner and (name[1:] in source.cycles or any(name[1:] == own for _, own in source.functions))
        if not owner:
            return ("", name) in source.functions
        # the methods of a type may stand in any module of its crate
        known = any(owner[0].startswith(of) for of in source.types) or (owner[0], name) in source.functions
        return len(owner) == 1 and known and any((owner[0], name) in other.functions for other in sources.values())
    return False


def named_by(file, named, lost):
    """Adds the files that a file of proofs/ names by `mod`, and those that these name."""
    named.add(file)
    folder = file.parent if file.name == "Lib.antt" else file.with_suffix("")
    for name in re.findall(r"(?m)^\s*(?:pub )?mod «?([^\s»]+)", without_comments(file.read_text(), "--")):
        below = folder / f"{name}.antt"
        if below.is_file():
            named_by(below, named, lost)
        else:
            lost.append(f"{file.relative_to(TOP)} names {name}, and there is no such file")


def lost_in(crate):
    proofs, named, lost = CRATES / crate / "proofs", set(), []
    if (proofs / "Lib.antt").is_file():
        named_by(proofs / "Lib.antt", named, lost)
    sources = sources_of(crate)
    for file in sorted(proofs.rglob("*.antt")):
        if file in named:
            continue
        folder = file.parent.relative_to(proofs).parts
        if file.name in OF_FUNCTIONS and folder:
            if not is_of_function(sources, folder):
                lost.append(f"{file.relative_to(TOP)} is of no function of the crate")
        else:
            lost.append(f"{file.relative_to(TOP)} is named by no file")
    return lost


def main(crates):
    lost = [text for crate in crates or sorted(path.name for path in CRATES.iterdir() if path.is_dir()) for text in lost_in(crate)]
    for text in lost:
        print(f"lost_proofs.py: {text}")
    if not lost:
        print("each proof belongs to a function, or is named")
    return 1 if lost else 0


if __name__ == "__main__":
    sys.exit(main(sys.argv[1:]))
