#!/usr/bin/env python3
"""Says which names of public definitions of specs/ stand for two different things.

tools/public_names.py            prints each such name with its files
tools/public_names.py --check    does so too, and ends with status 1 where there is one

A definition is what stands from its name to the next blank line or definition, without comments. It counts at the
margin and within a module or a block of mutual recursion; a field of a record does not. Two equal ones are one thing.
Functions that have one meaning over several types (`reads_of` of both kinds of instruction) may share a name: they
stand in tools/same_meaning.txt with that meaning. Definitions under specs/model/ are for proofs alone and do not count.
"""

import os
import re
import sys

TOP = os.path.dirname(os.path.dirname(os.path.abspath(__file__)))
NAME = re.compile(r"(?:(?:abbrev |unfoldable )?pub|pub record|pub data) (\w+)\b")
BLOCK = re.compile(r"(?:(?:abbrev|unfoldable) )?mutual\b|module\b")


def indent(line):
    """How far a line is set in."""
    return len(line) - len(line.lstrip())


def text_from(lines):
    """The text of the definition that begins with the first of these lines."""
    text = [lines[0]]
    for line in lines[1:]:
        if not line.strip() or indent(line) < indent(lines[0]) or NAME.match(line.lstrip()):
            break
        text.append(line)
    return " ".join(" ".join(text).split())


def definitions(file):
    """The public names of a file of definitions, each with its text."""
    with open(file, encoding="utf-8") as text:
        lines = [line for line in text.read().split("\n") if not line.lstrip().startswith("--")]
    around = []
    for at, line in enumerate(lines):
        if not line.strip():
            continue
        while around and indent(around[-1]) >= indent(line):
            around.pop()
        found = NAME.match(line.lstrip())
        is_free = all(BLOCK.match(outer.lstrip()) for outer in around)
        if found and is_free and found[1] not in ("use", "mod", "record", "data"):
            yield found[1], text_from(lines[at:])
        around.append(line)


def spec_files():
    """The files of definitions of all crates, but for models."""
    for crate in sorted(os.listdir(f"{TOP}/crates")):
        for folder, _, files in os.walk(f"{TOP}/crates/{crate}/specs"):
            if "/specs/model" not in folder:
                yield from (f"{folder}/{file}" for file in sorted(files) if file.endswith(".antt"))


def same_meaning():
    """The names of functions that have one meaning wherever they stand."""
    with open(f"{TOP}/tools/same_meaning.txt", encoding="utf-8") as lines:
        return {line.split(":")[0] for line in lines if not line.startswith("#")}


def main():
    places = {}
    for file in spec_files():
        for name, text in definitions(file):
            places.setdefault(name, {}).setdefault(text, os.path.relpath(file, TOP))
    twice = {name: texts for name, texts in places.items() if len(texts) > 1}
    shared = same_meaning()
    wrong = sorted(twice.keys() - shared)
    for name in wrong:
        print(f"{name}: {', '.join(sorted(set(twice[name].values())))}")
    idle = sorted(shared - twice.keys())
    for name in idle:
        print(f"{name}: stands in tools/same_meaning.txt, and has one definition")
    return 1 if (wrong or idle) and "--check" in sys.argv[1:] else 0


if __name__ == "__main__":
    sys.exit(main())
