#!/usr/bin/env python3
"""Lists where code makes the error of an allocation itself, and compares the list with docs/want_of_memory.md.

The standard library lets anybody write the value AllocError, so no clause can tell it from the error of an allocation
that was refused. Here the places where it is written stand in a table that people read, and any other one is refused:
`tools/made_up_errors.py --check` ends with status 1. Without --check it prints the places.

It refuses, too, each place that could make `MemoryIsShort` without such an error: the word `of_refusal`, by which a
proof has it of any AllocError, in each file of definitions and of proofs but that of its definition and the proof of
`memory_is_short`; the word `AllocError` in each of them but the first; and each import of the module of the two but
that of `MemoryIsShort` alone.

This is a check of the text, and no clause: it knows these words, and not what they come to.
"""
import pathlib
import re
import sys

TOP = pathlib.Path(__file__).resolve().parent.parent
CRATES = TOP / "crates"
TABLE = TOP / "docs" / "want_of_memory.md"
# the name in a type, in a path of its own functions, or as a parameter's type, which no brace and no brace's line has
NO_VALUE = [r"Result<[^;{]*?AllocError>", r"From<[\w:]*AllocError>", r"\bAllocError::from\b", r"\[`AllocError`\]"]
PARAMETER = r"\bfn\b[^{]*?(?<!:):\s+[\w:]*\bAllocError\b(?=[,)\s])"
DEFINITION = "bk_memory/specs/Shortage.antt"
PROOFS = "bk_memory/proofs/"


def values(text):
    """How often a source makes the value, or gives its name another one."""
    count = 0
    for line in text.splitlines():
        line = line.split("//")[0]
        if re.match(r"\s*(pub )?(ghost )?use\b", line):
            count += len(re.findall(r"\bAllocError as\b", line))
            continue
        for pattern in [*NO_VALUE, PARAMETER]:
            line = re.sub(pattern, "", line)
        count += len(re.findall(r"\bAllocError\b", line))
    return count


def sources(ending):
    """The sources of all crates with this ending: each with its path below crates/."""
    for crate in sorted(CRATES.iterdir()):
        for part in ("src", "specs", "proofs"):
            for path in sorted((crate / part).rglob(f"*{ending}")):
                yield str(path.relative_to(CRATES)), path.read_text()


def found():
    """The files of the crates that make the value, with how often."""
    counts = {name: values(text) for name, text in sources(".rt")}
    return {name: count for name, count in counts.items() if count}


def listed():
    """The files of the table, with how often each may."""
    rows = re.findall(r"^\| `([^`]+)` \| (\d+) \|", TABLE.read_text(), re.M)
    return {name: int(count) for name, count in rows}


def made_facts(name, text):
    """What a source has that could make the fact that memory is short without the error of an allocation."""
    mark = "//" if name.endswith(".rt") else "--"
    text = "\n".join(line.split(mark)[0] for line in text.splitlines())
    if name != DEFINITION and not name.startswith(PROOFS):
        if re.search(r"\bof_refusal\b", text):
            yield "names `of_refusal`"
        for rest in re.findall(r"\bbk_memory\.specs\b(.*)", text):
            if not re.match(r"\.Shortage\.\{MemoryIsShort\}", rest):
                yield f"imports `bk_memory.specs{rest.strip()}`, and not `MemoryIsShort` alone"
    if name.endswith(".antt") and name != DEFINITION and re.search(r"\bAllocError\b", text):
        yield "names `AllocError`"


def main():
    places = found()
    if "--check" not in sys.argv[1:]:
        for name, count in places.items():
            print(f"{name}: {count}")
        return 0
    table, status = listed(), 0
    for name in sorted(places.keys() | table.keys()):
        if places.get(name, 0) != table.get(name, 0):
            print(f"{name} makes the error of an allocation {places.get(name, 0)} times, and the table has {table.get(name, 0)}")
            status = 1
    for ending in (".rt", ".antt"):
        for name, text in sources(ending):
            for what in made_facts(name, text):
                print(f"{name} {what}")
                status = 1
    if not status:
        print("docs/want_of_memory.md has each place that makes the error of an allocation, and no other source has a word that makes `MemoryIsShort`")
    return status


if __name__ == "__main__":
    sys.exit(main())
