"""Writes the page: one HTML text with its style, its script and all drawings."""
import os
import re
from html import escape

from . import flow, picture, source

HERE = os.path.dirname(os.path.abspath(__file__))
# a virtual register k stands in temporary k + 4 (docs/selection.md)
FIRST_TEMPORARY = 4
TITLES = {"tree": "tree", "vm": "virtual registers", "flow": "flow graph", "select": "temporaries", "alloc": "allocation",
          "asm": "assembly", "picture": "picture of the allocation"}
WORD = re.compile(r"\b(?P<t>[tv][0-9]+)\b|(?P<r>\$[0-9]+)|\b(?P<b>B[0-9]+)\b")


def part(name):
    with open(os.path.join(HERE, name), encoding="utf-8") as file:
        return file.read()


def coloured(text, key_of=None):
    """An instruction's text as HTML: temporaries and virtual registers light together, and blocks are named."""
    def word(match):
        found = match.group()
        if match.group("t"):
            number = int(found[1:]) + (FIRST_TEMPORARY if found[0] == "v" else 0)
            return f'<b data-t="{number}" style="--h:{picture.hue(number)}">{found}</b>'
        if match.group("r"):
            return f"<s>{found}</s>"
        return f'<a data-to="{key_of(int(found[1:]))}">{found}</a>' if key_of else found
    return WORD.sub(word, escape(text, quote=False))


class Keys:
    """The key of a block of each pass: the same for what is the same block."""

    def __init__(self, function):
        self.function = function

    def vm(self, number):
        return f"{self.function.number}:v{number}"

    def select(self, number):
        v = self.function.from_vm.get(number)
        return self.vm(v) if v is not None else f"{self.function.number}:s{number}"


def blocks_text(blocks, key_of, with_top=False):
    """A text over registers, block by block."""
    out = []
    for block in blocks:
        lines = [f'<span class="l label">B{block.number}{" top" if with_top else ":"} {coloured(block.top)}</span>']
        for number, text in block.lines:
            kind = "transfer" if number is None else ""
            at = "" if number is None else f' data-n="{number}"'
            lines.append(f'<span class="l {kind}"{at}><i class="n">{"" if number is None else number}</i>{coloured(text, key_of)}</span>')
        if with_top and block.bottom:
            lines.append(f'<span class="l label">B{block.number} bottom {coloured(block.bottom)}</span>')
        out.append(f'<div class="block" data-b="{key_of(block.number)}">{"".join(lines)}</div>')
    return "".join(out)


def alloc_text(function, keys):
    out = blocks_text(function.alloc, keys.select, True)
    for first, then, code in function.edges:
        if code:
            lines = "".join(f'<span class="l transfer"><i class="n"></i>{coloured(text)}</span>' for _, text in code)
            out += (f'<div class="block" data-b="{keys.select(first)}"><span class="l label">edge B{first} B{then}</span>{lines}</div>')
    return out


def asm_text(function, keys):
    """The assembly, in the blocks of the allocation."""
    out, last, count = [], (), len(function.alloc) or len(function.select)
    for block, line in function.asm:
        if block != last:
            key = f' data-b="{keys.select(block)}"' if block is not None and block < count else ""
            out.append(f'{"</div>" if last != () else ""}<div class="block"{key}>')
            last = block
        label = " label" if line.endswith(":") or line.startswith(".ent") else ""
        out.append(f'<span class="l{label}"><i class="n"></i>{coloured(line)}</span>')
    return "".join(out) + ("</div>" if out else "")


def tree_text(function, spans):
    """The tree, each line with the blocks that its statement is in."""
    out = []
    for k, line in enumerate(function.tree):
        keys = spans.get(k, [])
        at = f' data-bs="{" ".join(keys)}"' if keys else ""
        indent = len(line) - len(line.lstrip(" "))
        word, _, rest = line.strip().partition(" ")
        out.append(f'<span class="l tree"{at} style="--d:{indent // 2}"><em>{word}</em> {escape(rest, quote=False)}</span>')
    return "".join(out)


def source_text(text, lines):
    """The C text, line by line; `lines` has the functions and blocks of each."""
    out = []
    for k, line in enumerate(text.splitlines(), 1):
        of = lines.get(k, {})
        at = f' data-f="{of["function"]}"' if "function" in of else ""
        if of.get("keys"):
            at += f' data-bs="{" ".join(of["keys"])}"'
        out.append(f'<span class="l"{at}><i class="n">{k}</i>{escape(line, quote=False)}</span>')
    return "".join(out)


def panel(name, body, extra=""):
    if not body:
        return ""
    return (f'<section class="panel {name}" data-panel="{name}"><h3>{TITLES[name]}{extra}</h3>'
            f'<div class="body">{body}</div></section>')


def function_part(function, mapped):
    """All that is shown of a function."""
    keys = Keys(function)
    spans = {line: [keys.vm(n) for n in blocks] for line, blocks in mapped.tree.items()}
    panels = [
        panel("tree", tree_text(function, spans)),
        panel("vm", blocks_text(function.vm, keys.vm)),
        panel("flow", flow.draw(function, keys.vm)),
        panel("select", blocks_text(function.select, keys.select)),
        panel("alloc", alloc_text(function, keys)),
        panel("asm", asm_text(function, keys)),
    ]
    drawn = picture.draw(function, keys.select, coloured)
    legend = ('<span class="legend"><i class="k life"></i>lives <i class="k hole"></i>hole <i class="k bar"></i>in a register '
              '<i class="k fixed"></i>fixed use <i class="k store">\u25b8</i>store <i class="k load">\u25c2</i>load'
              '<i class="k evict">\u00d7</i>eviction <i class="k">\u25cb</i>gets a register</span>')
    return (f'<article id="f{function.number}" data-function="{function.number}"><h2>{escape(function.name)}</h2>'
            f'<div class="strip">{"".join(panels)}</div>{panel("picture", drawn, legend)}</article>')


def make(name, text, functions, texts):
    """The page for a C text with its functions as the passes have them."""
    mapped = source.map_unit(text, texts.get("tree", ""), functions)
    lines = {}
    for function in functions:
        of = mapped[function.number]
        for line in range(of.first, of.last + 1):
            lines.setdefault(line, {})["function"] = function.number
        for line, blocks in of.lines.items():
            lines.setdefault(line, {})["keys"] = [Keys(function).vm(n) for n in blocks]
    chosen = next((f.number for f in functions if f.name == "main"), 0)
    tabs = "".join(f'<button data-function="{f.number}" aria-pressed="{"true" if f.number == chosen else "false"}">{escape(f.name)}</button>'
                   for f in functions)
    present = [it for it in TITLES if any(getattr(f, {"flow": "graph", "picture": "alloc"}.get(it, it)) for f in functions)]
    views = '<button data-view="source" aria-pressed="true">C</button>' + "".join(
        f'<button data-view="{it}" aria-pressed="true">{TITLES[it].replace("picture of the allocation", "picture")}</button>' for it in present)
    body = "".join(function_part(f, mapped[f.number]) for f in functions)
    return f"""<!DOCTYPE html>
<html lang="en">
<head>
<meta charset="utf-8">
<meta name="viewport" content="width=device-width, initial-scale=1">
<meta name="color-scheme" content="light dark">
<title>{escape(name)}: its passes</title>
<style>
{part("page.css")}</style>
</head>
<body data-chosen="{chosen}">
<svg width="0" height="0" aria-hidden="true"><defs><marker id="tip" viewBox="0 0 8 8" refX="7" refY="4" markerWidth="8"
markerHeight="8" markerUnits="userSpaceOnUse" orient="auto"><path d="M0 0L8 4L0 8z"/></marker></defs></svg>
<header><h1>{escape(name)}</h1><nav class="functions" aria-label="functions">{tabs}</nav>
<nav class="views" aria-label="views">{views}</nav></header>
<main>
<section class="panel source" data-panel="source"><h3>C text</h3><div class="body">{source_text(text, lines)}</div></section>
<div class="functions">{body}</div>
</main>
<script>
{part("page.js")}</script>
</body>
</html>
"""
