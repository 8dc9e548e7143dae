"""Calls that only a compiler knows, where they have a meaning in plain C, and branches that a constant decides, since
what never runs is often what is not turned."""

from pycparser import c_ast as c

from .tree import Transformer, number


class GccWords(Transformer):
    def __init__(self, kinds):
        self.kinds = kinds

    def visit_FuncCall(self, node):
        word = node.name.name if isinstance(node.name, c.ID) else None
        if word == "offsetof":
            place = self.kinds.offset(node)
            return node if place is None else c.Cast(self.unsigned_long(), number(place), node.coord)
        self.visit_children(node)
        return node.args.exprs[0] if word == "__builtin_expect" else node

    def visit_If(self, node):
        value = self.kinds.value(node.cond)
        if value is None:
            return self.visit_children(node)
        taken = node.iftrue if value else node.iffalse
        return c.EmptyStatement(node.coord) if taken is None else self.one(self.visit(taken), taken)

    @staticmethod
    def unsigned_long():
        ty = c.TypeDecl(None, [], None, c.IdentifierType(["unsigned", "long"]))
        return c.Typename(None, [], None, ty)


def turn_gcc_words(unit, kinds):
    words = GccWords(kinds)
    for external in unit.ext:
        words.visit(external)
