#!/usr/bin/env python3
"""Lists the definitions that contracts of public functions and types reach, crate by crate and file by file.

    tools/definitions.py               writes docs/definitions-index.md
    tools/definitions.py --check       fails where docs/definitions-index.md is not what would be written

Each definition stands there with the first sentence of its comment, where it has one. Those of specs/model/ are left
out: only proofs and private contracts speak of them. What is reached is what tools/trusted.py finds.

Run it in the repository.
"""

import collections
import re
import sys
from pathlib import Path

from trusted import Repository

TOP = Path(__file__).resolve().parent.parent
PAGE = TOP / "docs" / "definitions-index.md"


def first_sentence(lines):
    """The first sentence of lines of a comment, without the full stop and with `signs` as they stand."""
    text = " ".join(line.strip().lstrip("-").strip() for line in lines)
    sentence = re.split(r"(?<=[^.\s])\.(?:\s|$)", text, maxsplit=1)[0].rstrip(":.")
    return sentence.replace("|", "\\|").replace("<", "&lt;")


def head_of(file):
    """What a file says of itself before its first other line."""
    head = []
    for line in file.lines:
        if not line.startswith("--"):
            break
        head.append(line)
    return first_sentence(head)


def comment_of(file, name):
    """The comment in front of a definition."""
    comment = []
    for at in sorted(file.nodes[name].lines):
        line = file.lines[at].strip()
        if not line.startswith("--"):
            break
        comment.append(line)
    return first_sentence(comment)


def section(file, names):
    """The lines of a file: what it is about, the definitions with comments, and then the others in order."""
    path = file.path.relative_to(file.path.parents[len(file.module.split("."))])
    about = head_of(file)
    out = ["", f"`{path}`" + (f": {about}." if about else ""), ""]
    said = [(name, comment_of(file, name)) for name in names]
    out += [f"- `{name}`: {comment}" for name, comment in said if comment]
    rest = [f"`{name}`" for name, comment in said if not comment]
    return out + (["- " + ("also " if len(rest) < len(said) else "") + " ".join(rest)] if rest else [])


def page(repository):
    roots = set().union(*(repository.public_items(crate) for crate in repository.crates))
    found = collections.defaultdict(list)
    for item in repository.reached(roots):
        if item.kind == "specs" and item.module.split(".")[0] not in ("model", "formers"):
            found[item.crate, item.module].append(item.name)
    out = [
        "# The definitions that public contracts reach",
        "",
        "Made by `tools/definitions.py` of the files in the folders `specs/` of the crates: each definition with the first",
        "sentence of its comment. `docs/definitions.md` is the page to begin with.",
    ]
    for crate in repository.crates:
        modules = sorted(module for name, module in found if name == crate)
        out += ["", f"## `{crate}`"] if modules else []
        for module in modules:
            file = repository.specs[crate, module]
            out += section(file, sorted(found[crate, module], key=lambda name: min(file.nodes[name].lines)))
    return "\n".join(out) + "\n"


def main(words):
    text = page(Repository())
    if words == ["--check"]:
        if not PAGE.is_file() or PAGE.read_text() != text:
            print("docs/definitions-index.md is not up to date: run tools/definitions.py", file=sys.stderr)
            return 1
        print("docs/definitions-index.md is up to date")
        return 0
    PAGE.write_text(text)
    return 0


if __name__ == "__main__":
    sys.exit(main(sys.argv[1:]))
