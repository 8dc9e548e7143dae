"""Which part of an object each item of an initialiser begins (C99 6.7.8), with designators and left-out braces."""

from collections import deque

from pycparser import c_ast as c

from .constants import is_text, text_bytes


class Parts:
    """An array or a struct with what its elements or members begin with, by number."""

    def __init__(self, ty, kinds):
        self.type, self.kinds = ty, kinds
        self.values = {}

    @property
    def is_array(self):
        return self.kinds.is_array(self.type)

    def count(self):
        """How many parts there are; an array without a length has room for all."""
        if not self.is_array:
            return len(self.kinds.members(self.type))
        length = self.kinds.length(self.type)
        return 1 << 26 if length is None else length

    def part_type(self, key):
        if self.is_array:
            return self.kinds.plain(self.type).type
        return self.kinds.members(self.type)[key][1]

    def child(self, key):
        if not isinstance(self.values.get(key), Parts):
            self.values[key] = Parts(self.part_type(key), self.kinds)
        return self.values[key]

    def used_length(self):
        return max(self.values, default=-1) + 1


class Filler:
    """Puts the items of lists to their parts."""

    def __init__(self, kinds, designators, type_of, faults):
        self.kinds = kinds
        self.designators = designators
        self.type_of = type_of
        self.faults = faults

    def fill(self, ty, init):
        """What an object of a type begins with: an expression, or the parts of an array or a struct."""
        if isinstance(init, c.InitList):
            return self.braced(ty, init.exprs or [])
        return init

    def braced(self, ty, items):
        if not self.kinds.is_aggregate(ty):
            return self.scalar(items)
        if self.kinds.is_characters(ty) and len(items) == 1 and is_text(items[0]):
            return items[0]
        node, rest, key = Parts(ty, self.kinds), deque(items), 0
        while rest:
            if isinstance(rest[0], c.NamedInitializer):
                item = rest.popleft()
                key = self.designated(node, item.name, item.expr, rest)
            elif key < node.count():
                self.put(node, key, rest)
                key += 1
            else:
                self.faults.note(rest[0], "initialiser with too many values")
                break
        return node

    def scalar(self, items):
        if len(items) != 1:
            return c.Constant("int", "0")
        return self.scalar(items[0].exprs) if isinstance(items[0], c.InitList) else items[0]

    def put(self, node, key, items):
        """Begins a part with the next item, or with as many as it takes where its braces are left out."""
        ty, item = node.part_type(key), items[0]
        if isinstance(item, c.InitList):
            node.values[key] = self.braced(ty, items.popleft().exprs or [])
        elif not self.kinds.is_aggregate(ty) or self.is_whole(ty, item):
            node.values[key] = items.popleft()
        else:
            self.elided(node.child(key), items, 0)

    def is_whole(self, ty, item):
        """Whether an expression is the value of a whole array or struct."""
        if is_text(item):
            return self.kinds.is_characters(ty)
        found = self.type_of(item)
        return self.kinds.is_struct(ty) and found is not None and self.kinds.is_struct(found)

    def elided(self, node, items, key):
        while key < node.count() and items and not isinstance(items[0], c.NamedInitializer):
            self.put(node, key, items)
            key += 1

    def designated(self, node, designators, expression, items):
        """Begins the part that designators name, and gives the number of the part behind it."""
        key = self.key(node, designators[0])
        if key is None or key >= node.count():
            self.faults.note(expression, "designator of no part")
            return 0
        if len(designators) == 1:
            items.appendleft(expression)
            self.put(node, key, items)
        else:
            child = node.child(key)
            behind = self.designated(child, designators[1:], expression, items)
            self.elided(child, items, behind)
        return key + 1

    def key(self, node, designator):
        if not node.is_array:
            words = [word for word, _ in self.kinds.members(node.type)]
            return words.index(designator.name) if designator.name in words else None
        if id(designator) in self.designators:
            designator = c.ID(self.designators[id(designator)][1])
        return self.kinds.value(designator)


def length_by(filled):
    """The length that an array takes from what it begins with."""
    return len(text_bytes(filled)) + 1 if is_text(filled) else max(filled.used_length(), 1)
