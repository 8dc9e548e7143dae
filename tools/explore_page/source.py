"""Finds which lines of the C text, and which lines of the tree, a function and its blocks come from.

No text of a pass says it. The leaves of the tree stand in the order of the text, so they are found in it one behind the
other. Blocks begin where the code of a statement or expression begins them, so a walk over the tree counts them; where its
count is not that of the text of `vm`, nothing is said of blocks.
"""
import bisect

from place_advice import Tokens

LEAVES = ("name", "number", "character", "text")
EXPRESSIONS = LEAVES + ("call", "unary", "binary", "assign", "choose", "cast", "sizeof", "index", "field", "arrow", "after", "comma")


class Node:
    """A line of the tree with what stands under it."""

    def __init__(self, line, word, text):
        self.line, self.word, self.text, self.children = line, word, text, []


class Mapped:
    """The lines of a function in the C text, and the blocks of `vm` of each line of the text and of the tree."""

    def __init__(self):
        self.first, self.last, self.lines, self.tree = 1, 0, {}, {}


def read_nodes(lines):
    """The nodes of the tree at its first level. The number of a line counts from its external."""
    roots, open_nodes = [], []
    for line in lines:
        if not line.strip():
            continue
        depth = (len(line) - len(line.lstrip(" "))) // 2
        word, _, text = line.strip().partition(" ")
        if depth == 0:
            count = 0
        node = Node(count, word, text)
        count += 1
        del open_nodes[depth:]
        (open_nodes[-1].children if open_nodes else roots).append(node)
        open_nodes.append(node)
    return roots


# ---- the places of the nodes in the text

def anchors(node):
    """The tokens of a node in the order of the text, each with its node."""
    word, kids = node.word, node.children
    if word in LEAVES:
        for _, text, _ in Tokens(node.text.encode()).all:
            yield text, node
    elif word in ("field", "arrow"):
        for kid in kids:
            yield from anchors(kid)
        yield node.text, node
    elif word in ("call", "local", "object", "function", "parameter", "member", "constant", "typedef"):
        yield node.text.split(" ")[0], node
        for kid in kids:
            yield from anchors(kid)
    elif word in ("binary", "assign", "index", "choose"):
        signs = {"index": "[", "choose": "?:"}.get(word) or [node.text]
        yield from anchors(kids[0])
        for sign, kid in zip(signs, kids[1:]):
            yield sign, node
            yield from anchors(kid)
    elif word == "unary":
        yield node.text, node
        yield from anchors(kids[0])
    elif word == "after":
        yield from anchors(kids[0])
        yield node.text, node
    elif word == "do":
        yield "do", node
        yield from anchors(kids[0])
        yield "while", node
        yield from anchors(kids[1])
    elif word == "if":
        yield "if", node
        yield from anchors(kids[0])
        yield from anchors(kids[1])
        if len(kids) > 2:
            yield "else", node
            yield from anchors(kids[2])
    else:
        if word in ("while", "for", "switch", "case", "default", "break", "continue", "return"):
            yield word, node
        for kid in kids:
            yield from anchors(kid)


def places(roots, tokens):
    """The offset of each node's own token, and for each external the number of its token."""
    found, externals, at = {}, {}, 0
    for root in roots:
        for text, node in anchors(root):
            if text == "-":
                continue
            k = at
            while k < len(tokens.all) and tokens.all[k][1] != text:
                k += 1
            if k == len(tokens.all):
                return found, externals
            found.setdefault(node, []).append(tokens.all[k][2])
            if node is root:
                externals[root] = k
            at = k + 1
    return found, externals


def extent(tokens, k):
    """The offsets of the first and the last token of a definition whose name is this token."""
    first = k
    while first and tokens.all[first - 1][1] not in (";", "}"):
        first -= 1
    last, depth = k, 0
    while last + 1 < len(tokens.all):
        text = tokens.all[last][1]
        depth += (text == "{") - (text == "}")
        if text == "}" and depth == 0:
            break
        last += 1
    return tokens.all[first][2], tokens.all[last][2]


# ---- the blocks of the nodes

class Blocks:
    """Counts the blocks of a function's code over virtual registers, in order, and says which node is in which."""

    def __init__(self):
        self.now, self.of = 0, {}

    def mark(self, node):
        self.of.setdefault(node, [])
        if self.now not in self.of[node]:
            self.of[node].append(self.now)

    def start(self, node=None):
        """What stands here ends its block."""
        if node:
            self.mark(node)
        self.now += 1

    def expression(self, node):
        word, kids = node.word, node.children
        if word == "binary" and node.text in ("&&", "||"):
            for kid in kids:
                self.expression(kid)
                self.start(node)
            # one value, a jump over the other one, and the other one
            self.start(node)
            self.start(node)
        elif word == "choose":
            for kid in kids:
                self.expression(kid)
                self.start(node)
        elif word == "cast":
            self.expression(kids[1])
        elif word != "sizeof":
            for kid in kids:
                self.expression(kid)
        self.mark(node)

    def loop(self, node, body, condition, step):
        self.statement(body)
        self.start()
        if step:
            self.expression(step)
            self.start()
        if condition:
            self.expression(condition)
        self.start(node)

    def statement(self, node):
        word, kids = node.word, node.children
        if word in EXPRESSIONS:
            self.expression(node)
        elif word == "local":
            for kid in kids[1:]:
                self.expression(kid)
            self.mark(node)
        elif word == "if":
            self.expression(kids[0])
            self.start(node)
            self.statement(kids[1])
            if len(kids) > 2:
                self.start()
                self.statement(kids[2])
            self.start()
        elif word == "while":
            self.start(node)
            self.loop(node, kids[1], kids[0], None)
        elif word == "do":
            self.start()
            self.loop(node, kids[0], kids[1], None)
        elif word == "for":
            condition, step, body = [None if kid.word == "none" else kid for kid in kids[-3:]]
            for kid in kids[:-3]:
                if kid.word != "none":
                    self.statement(kid)
            self.start(node)
            self.loop(node, body, condition, step)
        elif word == "switch":
            self.switch(node)
        elif word in ("break", "continue", "return"):
            for kid in kids:
                self.expression(kid)
            self.start(node)
        elif word != "empty":
            for kid in kids:
                self.statement(kid)

    def switch(self, node):
        operand, labels = node.children[0], node.children[1:]
        self.expression(operand)
        for label in labels:
            if label.word == "case":
                self.start(label)
        self.start(node)
        for label in labels:
            self.start()
            self.mark(label)
            for kid in label.children[1 if label.word == "case" else 0:]:
                self.statement(kid)
        self.start()


def blocks_of(root, count):
    """The blocks of each node of a function, or none where the count is another one."""
    blocks = Blocks()
    for kid in root.children:
        if kid.word == "block":
            blocks.statement(kid)
    return blocks.of if blocks.now + 1 == count else {}


def map_unit(text, tree, functions):
    """The lines of each function, by its number."""
    mapped = {function.number: Mapped() for function in functions}
    roots = read_nodes(tree.splitlines())
    data = text.encode()
    tokens = Tokens(data)
    starts = [0] + [k + 1 for k, byte in enumerate(data) if byte == 10]
    found, externals = places(roots, tokens)

    def line(offset):
        return bisect.bisect_right(starts, offset)

    for function in functions:
        of = mapped[function.number]
        root = next((it for it in roots if it.word == "function" and it.text.split(" ")[0] == function.name
                     and any(kid.word == "block" for kid in it.children)), None)
        if root is None:
            continue
        if root in externals:
            first, last = extent(tokens, externals[root])
            of.first, of.last = line(first), line(last)
        for node, blocks in blocks_of(root, len(function.vm)).items():
            of.tree[node.line] = blocks
            for offset in found.get(node, []):
                of.lines.setdefault(line(offset), [])
                of.lines[line(offset)] += [it for it in blocks if it not in of.lines[line(offset)]]
    return mapped
