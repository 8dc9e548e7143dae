"""`_Bool` becomes `unsigned char`, and what is converted to it is compared with 0 (C99 6.3.1.2)."""

from pycparser import c_ast as c

from .tree import ScopedTransformer, number, parameters, walk

TRUTHS = {"==", "!=", "<", ">", "<=", ">=", "&&", "||"}


class Booleans(ScopedTransformer):
    def __init__(self, kinds, faults):
        super().__init__(kinds)
        self.faults = faults

    def is_boolean(self, ty):
        return ty is not None and self.kinds.is_words(ty, ["_Bool"])

    def is_truth(self, expression):
        """Whether a value is 0 or 1 for sure."""
        if isinstance(expression, c.BinaryOp):
            return expression.op in TRUTHS
        if isinstance(expression, c.UnaryOp) and expression.op == "!":
            return True
        return self.kinds.value(expression) in (0, 1) or self.is_boolean(self.type_of(expression))

    def truth(self, expression):
        return expression if self.is_truth(expression) else c.BinaryOp("!=", expression, number(0), expression.coord)

    def visit_Decl(self, node):
        super().visit_Decl(node)
        if node.init is not None and self.is_boolean(node.type):
            node.init = self.truth(node.init)
        return node

    def visit_Assignment(self, node):
        self.visit_children(node)
        if not self.is_boolean(self.type_of(node.lvalue)):
            return node
        if node.op != "=":
            node = self.without_operator(node)
        node.rvalue = self.truth(node.rvalue)
        return node

    def without_operator(self, node):
        if any(isinstance(part, (c.FuncCall, c.Assignment)) or is_step(part) for part in walk(node.lvalue)):
            self.faults.note(node, "compound assignment to a _Bool whose place has effects")
        value = c.BinaryOp(node.op[:-1], node.lvalue, node.rvalue, node.coord)
        return c.Assignment("=", node.lvalue, value, node.coord)

    def visit_UnaryOp(self, node):
        self.visit_children(node)
        if is_step(node) and self.is_boolean(self.type_of(node.expr)):
            self.faults.note(node, f"{node.op.strip('p')} of a _Bool")
        return node

    def visit_Return(self, node):
        self.visit_children(node)
        if node.expr is not None and self.is_boolean(self.function.decl.type.type):
            node.expr = self.truth(node.expr)
        return node

    def visit_FuncCall(self, node):
        self.visit_children(node)
        ty = self.type_of(node.name)
        if node.args and ty is not None:
            wanted = parameters(self.kinds.plain(ty))
            node.args.exprs = [
                self.truth(value) if k < len(wanted) and self.is_boolean(getattr(wanted[k], "type", None)) else value
                for k, value in enumerate(node.args.exprs)
            ]
        return node

    def visit_Cast(self, node):
        self.visit_children(node)
        return self.truth(node.expr) if self.is_boolean(node.to_type) else node


def is_step(node):
    return isinstance(node, c.UnaryOp) and node.op in ("++", "--", "p++", "p--")


def turn_booleans(unit, kinds, faults):
    """Where `_Bool` is used, all that is converted to it is; then the word is another one."""
    words = [node for node in walk(unit) if isinstance(node, c.IdentifierType) and node.names == ["_Bool"]]
    if not words:
        return
    booleans = Booleans(kinds, faults)
    for external in unit.ext:
        booleans.visit(external)
    for node in words:
        node.names = ["unsigned", "char"]
