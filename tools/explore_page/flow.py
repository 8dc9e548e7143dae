"""Lays out a flow graph, and draws it."""
from html import escape

LINE, CHAR, PAD, GAP_X, GAP_Y, LANE = 13, 6.6, 7, 26, 34, 9
SHOWN = 7


class Node:
    """A box of the drawing, or a bend of an edge."""

    def __init__(self, block, text, is_bend=False):
        self.block, self.text, self.is_bend = block, text, is_bend
        self.width = 0 if is_bend else max(44, 2 * PAD + CHAR * max(len(it) for it in text))
        self.height = 0 if is_bend else 2 * PAD + LINE * len(text)
        self.x = self.y = self.row = 0


def depth_first(graph, start):
    """The blocks in reverse order of their ends, and the edges that lead back."""
    order, back, state = [], set(), {}
    stack = [(start, iter(graph.get(start, [])))]
    state[start] = 1
    while stack:
        block, rest = stack[-1]
        for following in rest:
            if state.get(following) == 1:
                back.add((block, following))
            elif following not in state:
                state[following] = 1
                stack.append((following, iter(graph.get(following, []))))
                break
        else:
            state[block] = 2
            order.append(block)
            stack.pop()
    return order[::-1], back


def rows_of(graph, order, back):
    """The row of each block: one more than the last in front of it, loops apart."""
    row = {block: 0 for block in order}
    for block in order:
        for following in graph.get(block, []):
            if (block, following) not in back:
                row[following] = max(row[following], row[block] + 1)
    return row


def arrange(rows, links):
    """Orders each row so that edges cross little: by the middle of the neighbours, down and up in turn."""
    place = {node: k for row in rows for k, node in enumerate(row)}
    above, below = {}, {}
    for a, b in links:
        below.setdefault(a, []).append(b)
        above.setdefault(b, []).append(a)
    for turn in range(8):
        near = above if turn % 2 == 0 else below
        for row in rows if turn % 2 == 0 else reversed(rows):
            row.sort(key=lambda node: (sum(place[it] for it in near[node]) / len(near[node])) if near.get(node) else place[node])
            for k, node in enumerate(row):
                place[node] = k


def set_places(rows, links):
    """Gives each node its x: in its order, near the middle of its neighbours."""
    near = {}
    for a, b in links:
        near.setdefault(a, []).append(b)
        near.setdefault(b, []).append(a)
    for row in rows:
        x = 0
        for node in row:
            node.x = x + node.width / 2
            x += node.width + (GAP_X if not node.is_bend else LANE)
    for turn in range(14):
        for row in rows if turn % 2 == 0 else reversed(rows):
            wanted = [sum(it.x for it in near[node]) / len(near[node]) if near.get(node) else node.x for node in row]
            # from the left each at least behind the one in front, then from the right, and the middle of both
            left, right, edge = [], [0] * len(row), None
            for node, x in zip(row, wanted):
                low = x if edge is None else max(x, edge + node.width / 2)
                left.append(low)
                edge = low + node.width / 2 + (LANE if node.is_bend else GAP_X)
            edge = None
            for k in range(len(row) - 1, -1, -1):
                node = row[k]
                high = wanted[k] if edge is None else min(wanted[k], edge - node.width / 2)
                right[k] = high
                edge = high - node.width / 2 - (LANE if node.is_bend else GAP_X)
            for k, node in enumerate(row):
                node.x = (left[k] + right[k]) / 2
    low = min(node.x - node.width / 2 for row in rows for node in row)
    for row in rows:
        for node in row:
            node.x -= low


def laid_out(blocks, graph):
    """The nodes in rows, the chains of nodes of each edge, and whether an edge leads back."""
    start = blocks[0][0]
    order, back = depth_first(graph, start)
    row = rows_of(graph, order, back)
    nodes = {block: Node(block, text) for block, text in blocks if block in row}
    rows = [[] for _ in range(max(row.values()) + 1)]
    for block in order:
        nodes[block].row = row[block]
        rows[row[block]].append(nodes[block])
    links, chains = [], []
    for block in order:
        for k, following in enumerate(graph.get(block, [])):
            is_back = (block, following) in back
            a, b = (following, block) if is_back else (block, following)
            chain = [nodes[a]]
            for between in range(row[a] + 1, row[b]):
                bend = Node(None, [], True)
                bend.row = between
                rows[between].append(bend)
                chain.append(bend)
            chain.append(nodes[b])
            if row[a] < row[b]:
                links += list(zip(chain, chain[1:]))
            chains.append((block, following, k, chain, is_back))
    arrange(rows, links)
    set_places(rows, links)
    y = 4
    for line in rows:
        height = max([node.height for node in line] + [0])
        for node in line:
            node.y, node.room = y, height
        y += height + GAP_Y
    return nodes, rows, chains, y - GAP_Y + 4


def curve(points):
    """A path that goes straight down between rows and bends in the gaps."""
    path = f"M{points[0][0]:.1f} {points[0][1]:.1f}"
    for (x0, y0), (x1, y1) in zip(points, points[1:]):
        middle = (y0 + y1) / 2
        path += f"C{x0:.1f} {middle:.1f} {x1:.1f} {middle:.1f} {x1:.1f} {y1:.1f}" if x0 != x1 else f"L{x1:.1f} {y1:.1f}"
    return path


def edge_path(block, following, k, count, chain, is_back):
    """The path of an edge. One that leads back goes up on the right of its boxes."""
    if block == following:
        node = chain[0]
        right, top, bottom = node.x + node.width / 2, node.y + 10, node.y + node.height - 10
        return f"M{right:.1f} {bottom:.1f}C{right + 26:.1f} {bottom + 8:.1f} {right + 26:.1f} {top - 8:.1f} {right:.1f} {top:.1f}"
    shift = 0 if count < 2 else (-9 if k == 0 else 9)
    if not is_back:
        a, b = chain[0], chain[-1]
        points = [(a.x + shift, a.y + a.height)]
        if a.height < a.room:
            points.append((a.x + shift, a.y + a.room))
        for bend in chain[1:-1]:
            points += [(bend.x, bend.y), (bend.x, bend.y + bend.room)]
        points.append((b.x, b.y))
        return curve(points)
    top, bottom = chain[0], chain[-1]
    if len(chain) > 2:
        points = [(bottom.x + bottom.width / 2 - 10, bottom.y)]
        for bend in reversed(chain[1:-1]):
            points += [(bend.x, bend.y + bend.room), (bend.x, bend.y)]
        points.append((top.x + top.width / 2 - 10, top.y + top.height))
        if top.height < top.room:
            points.insert(-1, (top.x + top.width / 2 - 10, top.y + top.room))
        return curve(points)
    return curve([(bottom.x + bottom.width / 2 - 10, bottom.y), (top.x + top.width / 2 - 10, top.y + top.height)])


def draw(function, key_of):
    """The flow graph of a function as SVG. `key_of` gives the key of a block of `vm`."""
    source = function.vm or [type("B", (), {"number": n, "lines": []})() for n in function.graph]
    if not source:
        return ""
    graph = function.graph or {}
    if not graph:
        return ""
    blocks = []
    for block in source:
        lines = [text for _, text in block.lines]
        shown = lines if len(lines) <= SHOWN else lines[:SHOWN - 2] + [f".. {len(lines) - SHOWN + 1} more", lines[-1]]
        blocks.append((block.number, [f"B{block.number}"] + [it if len(it) < 34 else it[:32] + ".." for it in shown]))
    nodes, rows, chains, height = laid_out(blocks, graph)
    width = max(node.x + node.width / 2 for row in rows for node in row) + 34
    out = [f'<svg class="flow" width="{width + 8:.0f}" height="{height:.0f}" viewBox="-4 0 {width + 8:.0f} {height:.0f}" '
           f'role="img" aria-label="flow graph of {escape(function.name)}">']
    for block, following, k, chain, is_back in chains:
        path = edge_path(block, following, k, len(graph[block]), chain, is_back)
        kind = " back" if is_back else ""
        out.append(f'<path class="edge{kind}" d="{path}" marker-end="url(#tip)" data-from="{key_of(block)}" '
                   f'data-to="{key_of(following)}"/>')
    for node in nodes.values():
        x = node.x - node.width / 2
        out.append(f'<g class="box" data-b="{key_of(node.block)}"><rect x="{x:.1f}" y="{node.y}" width="{node.width:.1f}" '
                   f'height="{node.height}" rx="4"/>')
        for k, text in enumerate(node.text):
            weight = ' class="name"' if k == 0 else ""
            out.append(f'<text{weight} x="{x + PAD:.1f}" y="{node.y + PAD + LINE * k + 10}">{escape(text)}</text>')
        out.append("</g>")
    out.append("</svg>")
    left = [block.number for block in source if block.number not in nodes]
    note = "" if not left else '<p class="note">nothing comes to ' + ", ".join(f"B{n}" for n in left) + "</p>"
    return "".join(out) + note
