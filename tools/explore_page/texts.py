"""Reads the texts of the passes, and finds what of one pass is what of another one."""
import re

PASSES = ("tree", "vm", "graph", "select", "live", "alloc", "journal", "asm")


class Block:
    """A block in the text of a pass: its number, its lines as pairs of a number and a text, and what stands round it."""

    def __init__(self, number):
        self.number, self.lines, self.top, self.bottom = number, [], "", ""


class Function:
    """A function as each pass has it."""

    def __init__(self, name, number):
        self.name, self.number = name, number
        self.tree, self.vm, self.graph, self.select, self.alloc = [], [], {}, [], []
        self.edges, self.live, self.journal, self.asm = [], {}, [], []
        # for each block of `select` the block of `vm`, or None
        self.from_vm = {}


def functions_of(text):
    """The lines of each function of a text, by its number."""
    found = []
    for line in text.splitlines():
        if line.startswith("func "):
            found.append((line[5:], []))
        elif found:
            found[-1][1].append(line)
    return found


def instruction(line):
    """A line as its number and its text; a transfer has no number."""
    match = re.match(r"([0-9]+) (.*)", line)
    return (int(match.group(1)), match.group(2)) if match else (None, line)


def read_blocks(lines):
    """The blocks of a text over registers."""
    blocks = []
    for line in lines:
        match = re.fullmatch(r"B([0-9]+):", line)
        if match:
            blocks.append(Block(int(match.group(1))))
        elif blocks:
            blocks[-1].lines.append(instruction(line))
    return blocks


def read_alloc(lines):
    """The blocks of an allocation, and the transfers of its edges."""
    blocks, edges, into = [], [], None
    for line in lines:
        top = re.fullmatch(r"B([0-9]+) top(.*)", line)
        bottom = re.fullmatch(r"B([0-9]+) bottom(.*)", line)
        edge = re.fullmatch(r"edge B([0-9]+) B([0-9]+)", line)
        if top:
            blocks.append(Block(int(top.group(1))))
            blocks[-1].top = top.group(2).strip()
            into = blocks[-1].lines
        elif bottom:
            blocks[-1].bottom = bottom.group(2).strip()
        elif edge:
            edges.append((int(edge.group(1)), int(edge.group(2)), []))
            into = edges[-1][2]
        elif into is not None:
            into.append(instruction(line))
    return blocks, edges


def read_live(lines):
    """The parts of each temporary's lifetime, by its number."""
    found = {}
    for line in lines:
        match = re.fullmatch(r"t([0-9]+)((?: [0-9]+-[0-9]+)*)", line)
        if match:
            found[int(match.group(1))] = [tuple(map(int, part.split("-"))) for part in match.group(2).split()]
    return found


def read_graph(lines):
    found = {}
    for line in lines:
        match = re.fullmatch(r"B([0-9]+):((?: B[0-9]+)*)", line)
        if match:
            found[int(match.group(1))] = [int(it[1:]) for it in match.group(2).split()]
    return found


def successors(blocks):
    """The blocks that may follow each, of a text over registers."""
    found = {}
    for k, block in enumerate(blocks):
        last = block.lines[-1][1] if block.lines else ""
        target = re.search(r"\bB([0-9]+)$", last)
        word = last.split(" ")[0]
        found[block.number] = [int(target.group(1))] if target else []
        ends = word.startswith(("jmp", "ret")) or last.startswith("br $31")
        if not ends and k + 1 < len(blocks):
            found[block.number].append(blocks[k + 1].number)
    return found


def blocks_in_vm(function):
    """For each block of `select` the block of `vm` that it is, or None for one that was put on an edge.

    What nothing comes to is gone in `select`, and the others keep their order. An edge from a block with two successors to
    one with several predecessors is split: one block behind it where it is the next block's edge, two where it is the
    branch's, of which the first goes past the second. Where the edges of `select` are then others, nothing is said.
    """
    if not function.vm or not function.select:
        return {}
    of_vm, of_select = successors(function.vm), successors(function.select)
    reached, todo = set(), [function.vm[0].number]
    while todo:
        block = todo.pop()
        if block not in reached:
            reached.add(block)
            todo += of_vm[block]
    before = {}
    for block in reached:
        for following in of_vm[block]:
            before[following] = before.get(following, 0) + 1
    pairs, rest = {}, [block.number for block in function.select]
    for block in sorted(reached):
        split = [before[it] > 1 for it in of_vm[block]] if len(of_vm[block]) == 2 else [False, False]
        count = 1 + (2 if split[0] else 1 if split[1] else 0) if len(of_vm[block]) == 2 else 1
        if len(rest) < count:
            return {}
        pairs[rest[0]] = block
        pairs.update((it, None) for it in rest[1:count])
        rest = rest[count:]

    def past(block):
        return pairs[block] if pairs[block] is not None or not of_select[block] else past(of_select[block][0])

    same = all([past(it) for it in of_select[s]] == of_vm[v] for s, v in pairs.items() if v is not None)
    return pairs if same and not rest else {}


def read_asm(text, names):
    """The lines of assembly of each function, each with the number of its block, None in front of the first.

    The labels of a function's blocks follow one another, and the one behind them is its end.
    """
    found, into, block, head = {}, None, None, True
    number = -1
    for line in text.splitlines():
        label = re.fullmatch(r"L([0-9]+):", line)
        if line.startswith(".ent "):
            number += 1
            into = found.setdefault(number, [])
            block, head = None, True
        elif line.startswith(".data ") or label and int(label.group(1)) < 256 and number + 1 == len(names):
            into = None
        if into is None:
            continue
        if label and head and int(label.group(1)) == 256 + number:
            head = False
        elif label:
            block = 0 if block is None else block + 1
        into.append((block, line))
    return found


def read_tree(text):
    """The externals of a tree, each as the lines that it has."""
    found = []
    for line in text.splitlines():
        if line and not line.startswith(" "):
            found.append([])
        if found:
            found[-1].append(line)
    return found


def read(texts):
    """The functions of the texts of the passes, by a name of the pass."""
    names = next((functions_of(texts[name]) for name in ("vm", "select", "alloc", "graph") if texts.get(name)), [])
    functions = [Function(name, k) for k, (name, _) in enumerate(names)]
    for name in ("vm", "graph", "select", "live", "alloc", "journal"):
        for function, (_, lines) in zip(functions, functions_of(texts.get(name, ""))):
            if name in ("vm", "select"):
                setattr(function, name, read_blocks(lines))
            elif name == "graph":
                function.graph = read_graph(lines)
            elif name == "live":
                function.live = read_live(lines)
            elif name == "journal":
                function.journal = lines
            else:
                function.alloc, function.edges = read_alloc(lines)
    asm = read_asm(texts.get("asm", ""), names)
    externals = read_tree(texts.get("tree", ""))
    for function in functions:
        function.asm = asm.get(function.number, [])
        function.from_vm = blocks_in_vm(function)
        for external in externals:
            head = external[0].split(" ")
            if head[:2] == ["function", function.name] and "  block" in external:
                function.tree = external
    return functions
