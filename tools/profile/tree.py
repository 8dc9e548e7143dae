"""Walks over pycparser's trees, and the small trees that the steps make."""

from pycparser import c_ast as c


class Begin(c.Node):
    """The initialiser of a declaration that stands elsewhere."""

    __slots__ = ("decl", "init", "coord", "__weakref__")
    attr_names = ()

    def __init__(self, decl, init, coord=None):
        self.decl, self.init, self.coord = decl, init, coord

    def children(self):
        return (("init", self.init),)


def child_slots(node):
    """The slots of a node that hold nodes, or lists of them."""
    kept = ("coord", "__weakref__", "decl") if isinstance(node, Begin) else ("coord", "__weakref__")
    return [slot for slot in node.__slots__ if slot not in kept and slot not in node.attr_names]


def children(node):
    for slot in child_slots(node):
        value = getattr(node, slot)
        if isinstance(value, list):
            yield from value
        elif isinstance(value, c.Node):
            yield value


def walk(node):
    """The node and all below it, in the order of the text."""
    yield node
    for child in children(node):
        yield from walk(child)


def block_of(statements, coord=None):
    """A statement out of some."""
    return statements[0] if len(statements) == 1 else c.Compound(statements, coord)


class Transformer:
    """Rewrites a tree in place: `visit_KIND` answers what stands for a node, a list where statements may."""

    def visit(self, node):
        return getattr(self, "visit_" + type(node).__name__, self.visit_children)(node)

    def visit_children(self, node):
        for slot in child_slots(node):
            value = getattr(node, slot)
            if isinstance(value, list):
                setattr(node, slot, self.visit_list(value))
            elif isinstance(value, c.Node):
                setattr(node, slot, self.one(self.visit(value), value))
        return node

    def visit_list(self, nodes):
        out = []
        for node in nodes:
            new = self.visit(node)
            out.extend(new if isinstance(new, list) else [new])
        return out

    @staticmethod
    def one(new, old):
        return block_of(new, old.coord) if isinstance(new, list) else new


class ScopedTransformer(Transformer):
    """A transformer that knows the types of the names in scope."""

    def __init__(self, kinds):
        self.kinds = kinds
        self.scopes = [kinds.names]

    def declare(self, name, ty):
        self.scopes[-1][name] = ty

    def type_named(self, name):
        for scope in reversed(self.scopes):
            if name in scope:
                return scope[name]
        return None

    def type_of(self, expression):
        return self.kinds.type_of(expression, self.type_named)

    def within(self, node):
        self.scopes.append({})
        self.visit_children(node)
        self.scopes.pop()
        return node

    visit_Compound = within
    visit_For = within

    def visit_FuncDef(self, node):
        self.scopes.append({})
        for parameter in parameters(node.decl.type):
            if isinstance(parameter, c.Decl):
                self.declare(parameter.name, parameter.type)
        self.function = node
        node.body = self.visit(node.body)
        self.scopes.pop()
        return node

    def visit_Decl(self, node):
        if node.name:
            self.declare(node.name, node.type)
        return self.visit_children(node)


def parameters(function):
    return function.args.params if function.args else []


def pointer_for(ty):
    """The type that a parameter of an array type has (C99 6.7.5.3)."""
    return c.PtrDecl([], ty.type, ty.coord) if isinstance(ty, c.ArrayDecl) else ty


def name(word, coord=None):
    return c.ID(word, coord)


def number(value, coord=None):
    digits = c.Constant("int", str(abs(value)), coord)
    return digits if value >= 0 else c.UnaryOp("-", digits, coord)


def assign(place, value):
    return c.Assignment("=", place, value, value.coord)


def basic(words, declared=None, coord=None):
    """The type of a declaration by words."""
    return c.TypeDecl(declared, [], None, c.IdentifierType(words.split(), coord), coord)


def declaration(word, ty, init=None, storage=(), coord=None):
    return c.Decl(word, [], [], list(storage), [], renamed_type(ty, word), init, None, coord)


def renamed_type(ty, word):
    """The same type, declared of another name."""
    if isinstance(ty, c.TypeDecl):
        return c.TypeDecl(word, ty.quals, None, ty.type, ty.coord)
    if isinstance(ty, c.PtrDecl):
        return c.PtrDecl(ty.quals, renamed_type(ty.type, word), ty.coord)
    if isinstance(ty, c.ArrayDecl):
        return c.ArrayDecl(renamed_type(ty.type, word), ty.dim, ty.dim_quals, ty.coord)
    if isinstance(ty, c.FuncDecl):
        return c.FuncDecl(ty.args, renamed_type(ty.type, word), ty.coord)
    return ty


def rename_declared(ty, word):
    """Renames what a declarator declares, in place."""
    while not isinstance(ty, c.TypeDecl):
        ty = ty.type
    ty.declname = word
