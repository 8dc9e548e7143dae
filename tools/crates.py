#!/usr/bin/env python3
"""crates.py [--check]    writes crates.txt, crates/README.md and docs/crates.md by what the sources say

crates.txt keeps its headings, which are the rooms, and the crates below each; the libraries on a crate's line are those
that its sources name, and the crates of a room stand lowest first. crates/README.md has the rooms with what the headings
say of them, and docs/crates.md each crate with the first line of its sources. With --check it only compares.
"""
import os
import re
import sys
from pathlib import Path

TOP = Path(__file__).resolve().parent.parent
# The libraries of the toolchain that the repository uses.
KIT = {"anyhow", "clap", "indexmap", "itoa", "smallvec", "thiserror"}
DOTTED = re.compile(r"\bRattle\.(\w+)\.(?:specs|proofs)\b")
COLONS = re.compile(r"(?<![\w:.$])(\w+)::")


def rooms_of(text):
    """The rooms of crates.txt: each heading with what is said of it, and its crates."""
    head, rooms, said = [], [], []
    for line in text.splitlines():
        line = line.strip()
        if line.startswith("## "):
            rooms.append((line[3:], [], said := []))
        elif line.startswith("#"):
            (said if rooms else head).append(line.lstrip("# "))
        elif ":" in line:
            rooms[-1][1].append(line.split(":")[0].strip())
    return head, rooms


def sources(crate):
    for folder in ("src", "specs", "proofs"):
        for at, folders, names in os.walk(TOP / "crates" / crate / folder):
            folders.sort()
            for name in sorted(names):
                if name.endswith((".rt", ".antt")):
                    yield Path(at) / name


def without_comments(text, mark):
    return "\n".join(line for line in text.splitlines() if not line.lstrip().startswith(mark))


def named_by(crate, known):
    """The libraries that the sources of a crate name."""
    found = set()
    for path in sources(crate):
        text = path.read_text()
        if path.suffix == ".rt":
            text = without_comments(text, "//")
            own = set(re.findall(r"(?m)^\s*(?:pub )?mod (\w+)", text))
            found |= {name for name in COLONS.findall(text) if name in known and name not in own}
            found |= {name for name in re.findall(r"(?m)^\s*(?:pub )?use (\w+);", text) if name in known}
        else:
            text = without_comments(text, "--")
        found |= {name for name in DOTTED.findall(text) if name in known}
    return found - {crate}


def first_line(crate):
    """The sentence that a crate's root file begins with, without its full stop."""
    for root in ("lib.rt", "main.rt"):
        path = TOP / "crates" / crate / "src" / root
        if path.exists():
            said = []
            for line in path.read_text().splitlines():
                if not line.startswith("//!") or line == "//!":
                    break
                said.append(line[3:].strip())
            return " ".join(said)
    return ""


def lowest_first(crates, below):
    done, order = set(), []

    def put(crate):
        if crate in done:
            return
        done.add(crate)
        for other in sorted(below[crate]):
            if other in below:
                put(other)
        order.append(crate)

    for crate in crates:
        put(crate)
    return [crate for crate in order if crate in set(crates)]


def pages():
    head, rooms = rooms_of((TOP / "crates.txt").read_text())
    crates = [crate for _, names, _ in rooms for crate in names]
    known = set(crates) | KIT
    below = {crate: named_by(crate, known) for crate in crates}
    order = lowest_first(crates, below)
    listing = [f"# {line}" for line in head]
    readme = ["# The crates", "", "Each crate stands in one of these rooms, which its name begins with; `crates.txt` says what it uses, and"]
    readme += ["`docs/crates.md` has a line for each. `CONTRIBUTING.md` says what is in a crate's folder.", ""]
    readme += ["| Room | Names | What is in it |", "|---|---|---|"]
    table = ["# Each crate in a line", "", "Made by `tools/crates.py` of the first lines of the sources, room by room and lowest first."]
    for room, names, said in rooms:
        mine = [crate for crate in order if crate in set(names)]
        listing += ["", f"## {room}"] + [f"# {line}" for line in said]
        listing += [f"{crate}:" + "".join(f" {other}" for other in sorted(below[crate])) for crate in mine]
        readme.append(f"| {room} | {said[0]} | {' '.join(said[1:])} |")
        table += ["", f"## {room}", "", "| Crate | What it has |", "|---|---|"]
        table += [f"| `{crate}` | {first_line(crate)} |" for crate in mine]
    return {"crates.txt": listing, "crates/README.md": readme, "docs/crates.md": table}


def main():
    wrong = []
    for name, lines in pages().items():
        text, path = "\n".join(lines) + "\n", TOP / name
        if "--check" not in sys.argv:
            path.write_text(text)
        elif not path.exists() or path.read_text() != text:
            wrong.append(name)
    if wrong:
        sys.exit(f"{', '.join(wrong)}: not what the sources say; tools/crates.py writes them")


main()
