"""What is not turned, with its places."""

from pycparser import c_ast as c

from .constants import text_bytes
from .kinds import takes_any_number
from .tree import ScopedTransformer, children, parameters, walk

BUILT_IN = {"putchar", "getchar", "abort", "exit"}
REAL = {"float", "double", "_Complex"}


class Faults:
    """The kinds of faults with their places, each once."""

    def __init__(self, found=()):
        self.found = set(found)

    def note(self, node, kind):
        coord = node.coord
        self.found.add((coord.file, coord.line, kind) if coord else ("", 0, kind))

    def lines(self):
        return [f"{file}:{line}: {kind}" for file, line, kind in sorted(self.found)]


class Finder(ScopedTransformer):
    """Goes through a unit and changes nothing."""

    def __init__(self, kinds, faults, defined):
        super().__init__(kinds)
        self.faults = faults
        self.defined = defined
        self.in_switch = False

    def note(self, node, kind):
        self.faults.note(node, kind)
        return node

    # ---- statements

    def visit_Goto(self, node):
        return self.note(node, "goto")

    def visit_Label(self, node):
        self.visit_children(node)
        return self.note(node, f"label {node.name}")

    def visit_Switch(self, node):
        self.visit(node.cond)
        for item in node.stmt.block_items or []:
            if isinstance(item, (c.Case, c.Default)):
                for part in children(item):
                    self.visit(part)
            else:
                self.visit(item)
        return node

    def visit_Case(self, node):
        self.visit_children(node)
        return self.note(node, "case within a statement of its switch")

    visit_Default = visit_Case

    # ---- types

    def visit_Union(self, node):
        return self.note(node, f"union {node.name}")

    def visit_IdentifierType(self, node):
        return self.note(node, "floating point") if REAL & set(node.names) else node

    def visit_Struct(self, node):
        for member in node.decls or []:
            if isinstance(member, c.Decl):
                self.visit_member(member)
        return node

    def visit_member(self, member):
        if member.bitsize is not None:
            self.note(member, f"bit-field {member.name}")
        if member.name is None:
            self.note(member, "member without a name")
        if self.kinds.is_array(member.type) and self.kinds.length(member.type) is None:
            self.note(member, f"array without a length {member.name}")
        self.visit(member.type)

    def visit_PtrDecl(self, node):
        if isinstance(self.kinds.plain(node.type), c.FuncDecl):
            return self.note(node, "pointer to a function")
        return self.visit_children(node)

    def visit_ArrayDecl(self, node):
        self.visit(node.type)
        if node.dim is not None and self.kinds.value(node.dim) is None:
            self.note(node, "array whose length is no constant")
        return node

    def visit_FuncDecl(self, node):
        if any(isinstance(parameter, c.EllipsisParam) for parameter in parameters(node)):
            return node
        for parameter in parameters(node):
            self.visit_parameter(parameter)
        if self.kinds.is_struct(node.type):
            self.note(node, "struct as a result")
        self.visit(node.type)
        return node

    def visit_parameter(self, parameter):
        if not isinstance(parameter, (c.Decl, c.Typename)):
            return
        plain = self.kinds.plain(parameter.type)
        if isinstance(plain, c.Struct):
            self.note(parameter, "struct as a parameter")
        if isinstance(plain, c.FuncDecl):
            self.note(parameter, "pointer to a function")
        if isinstance(plain, c.ArrayDecl):
            self.visit(plain.type)
        else:
            self.visit(parameter.type)

    # ---- declarations

    def visit_FuncDef(self, node):
        if takes_any_number(node.decl.type):
            self.note(node.decl, f"variable arguments of {node.decl.name}")
        self.visit(node.decl.type)
        return super().visit_FuncDef(node)

    def visit_Decl(self, node):
        super().visit_Decl(node)
        if node.align:
            self.note(node, "alignment")
        return node

    # ---- expressions

    def visit_Constant(self, node):
        if node.type in ("float", "double", "long double"):
            self.note(node, "floating point")
        elif node.value[0] not in "\"'.0123456789":
            self.note(node, "wide literal")
        elif node.value[0] == "'" and len(text_bytes(node)) != 1:
            self.note(node, "character constant of several characters")
        return node

    def visit_FuncCall(self, node):
        if not isinstance(node.name, c.ID):
            self.note(node, "call through a pointer")
            return self.visit_children(node)
        self.called(node, node.name.name)
        if node.args and node.name.name != "offsetof":
            self.visit(node.args)
        return node

    def called(self, node, word):
        ty = self.type_named(word)
        if word == "offsetof":
            return
        if word.startswith("__builtin_va_"):
            self.note(node, "variable arguments")
        elif ty is None:
            self.note(node, f"function {word}, which is not declared")
        elif not isinstance(self.kinds.plain(ty), c.FuncDecl):
            self.note(node, "call through a pointer")
        elif takes_any_number(self.kinds.plain(ty)):
            self.note(node, f"variable arguments of {word}")
        elif word not in self.defined and word not in BUILT_IN:
            self.note(node, f"function {word}, which has no body here")

    def visit_ID(self, node):
        ty = self.type_named(node.name)
        if ty is not None and isinstance(self.kinds.plain(ty), c.FuncDecl):
            self.note(node, "pointer to a function")
        elif ty is not None and node.name not in self.defined and self.kinds.names.get(node.name) is ty:
            self.note(node, f"object {node.name}, which is defined nowhere here")
        return node

    def visit_StructRef(self, node):
        self.visit(node.name)
        return node

    def visit_NamedInitializer(self, node):
        self.visit(node.expr)
        return node

    def visit_Cast(self, node):
        to, operand = node.to_type, self.type_of(node.expr)
        self.visit_children(node)
        if operand is None or self.is_void(to) or self.kinds.value(node.expr) == 0:
            return node
        if self.kinds.is_pointer(to) != self.kinds.is_pointer(operand):
            self.note(node, "cast between a pointer and an integer")
        return node

    def is_void(self, ty):
        return self.kinds.is_words(ty, ["void"])


def definitions(unit):
    """The names of the functions and objects that a unit defines."""
    names = set()
    for external in unit.ext:
        if isinstance(external, c.FuncDef):
            names.add(external.decl.name)
        elif isinstance(external, c.Decl) and external.name and not isinstance(external.type, c.FuncDecl):
            if "extern" not in external.storage or external.init is not None:
                names.add(external.name)
    return names


def find_faults(unit, kinds, faults):
    finder = Finder(kinds, faults, definitions(unit))
    for external in unit.ext:
        finder.visit(external)
