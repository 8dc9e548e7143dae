"""Initialisers as the profile has them: those of locals become assignments, those of file scope plain lists of
constants with all braces, and what is no constant there is assigned when `main` begins."""

from pycparser import c_ast as c

from .constants import is_text, text_bytes
from .parts import Filler, Parts, length_by
from .tree import ScopedTransformer, assign, basic, declaration, name, number

FEW = 8  # as many parts are assigned one by one, and more by a loop where one can


class Initialisers(ScopedTransformer):
    def __init__(self, kinds, fresh, designators, faults):
        super().__init__(kinds)
        self.fresh = fresh
        self.faults = faults
        self.filler = Filler(kinds, designators, self.type_of, faults)
        self.before = []
        self.late = []
        self.literals = []
        self.function = None

    # ---- externals

    def run(self, unit):
        out = []
        for external in unit.ext:
            self.before = []
            external = self.visit(external)
            out.extend(self.before + [external])
        unit.ext = out
        if self.late:
            begin_at_main(unit, self.fresh.named("begin_objects"), self.late)

    def visit_Decl(self, node):
        if len(self.scopes) == 1:
            return self.static_object(node)
        self.declare(node.name, node.type)
        if node.init is None:
            return node
        if "static" in node.storage or not self.needs_statements(node.type, node.init):
            return self.visit_children(node)
        init, node.init = node.init, None
        self.give_length(node, init)
        return [node] + self.begin(node, init)

    def visit_Begin(self, node):
        if self.needs_statements(node.decl.type, node.init):
            self.give_length(node.decl, node.init)
            return self.begin(node.decl, node.init)
        return assign(name(node.decl.name, node.coord), self.visit(node.init))

    def needs_statements(self, ty, init):
        return isinstance(init, c.InitList) or self.kinds.is_array(ty)

    def give_length(self, decl, init):
        """An array without a length takes it from its initialiser."""
        ty = decl.type
        if isinstance(ty, c.ArrayDecl) and ty.dim is None:
            ty.dim = number(length_by(self.filler.fill(ty, init)), decl.coord)

    # ---- locals

    def begin(self, decl, init):
        filled = self.filler.fill(decl.type, init)
        return self.visit_list(self.statements(name(decl.name, decl.coord), decl.type, filled))

    def statements(self, place, ty, filled):
        """Assignments to a place and its parts. What an initialiser says nothing of is zero."""
        if filled is None:
            return self.zeros(place, ty)
        if not isinstance(filled, Parts):
            is_text_array = is_text(filled) and self.kinds.is_array(ty)
            return self.text(place, ty, filled) if is_text_array else [assign(place, at(filled, place))]
        if self.is_long_table(filled):
            return self.copy_of_table(place, ty, filled)
        return self.array(place, filled) if filled.is_array else self.struct(place, filled)

    def struct(self, place, filled):
        out = []
        for key, (word, ty) in enumerate(self.kinds.members(filled.type)):
            out += self.statements(field(place, word), ty, filled.values.get(key))
        return out

    def array(self, place, filled):
        ty, out, key = filled.part_type(0), [], 0
        count = self.kinds.length(filled.type)
        for known in sorted(filled.values):
            out += self.zero_elements(place, ty, key, known)
            out += self.statements(element(place, number(known, place.coord)), ty, filled.values[known])
            key = known + 1
        return out + self.zero_elements(place, ty, key, count)

    def zeros(self, place, ty):
        if self.kinds.is_array(ty):
            return self.zero_elements(place, self.kinds.plain(ty).type, 0, self.kinds.length(ty))
        if self.kinds.is_struct(ty):
            members = self.kinds.members(ty)
            return [line for word, member in members for line in self.zeros(field(place, word), member)]
        return [assign(place, number(0, place.coord))]

    def zero_elements(self, place, ty, start, end):
        if end - start <= FEW:
            numbers = (number(key, place.coord) for key in range(start, end))
            return [line for key in numbers for line in self.zeros(element(place, key), ty)]
        return [self.loop(start, end, place, lambda k: self.zeros(element(place, k), ty))]

    def text(self, place, ty, constant):
        """The characters of a text, and zeros behind them."""
        characters = text_bytes(constant)
        length = self.kinds.length(ty)
        kept = min(len(characters), length)
        if kept <= FEW:
            values = [number((byte ^ 128) - 128, place.coord) for byte in characters[:kept]]
            out = [assign(element(place, number(k)), value) for k, value in enumerate(values)]
        else:
            out = [self.loop(0, kept, place, lambda k: [assign(element(place, k), element(constant, k))])]
        return out + self.zero_elements(place, self.kinds.plain(ty).type, kept, length)

    def loop(self, start, end, place, body):
        word = self.fresh.named("k")
        count = c.DeclList([declaration(word, basic("int"), number(start), coord=place.coord)], place.coord)
        below = c.BinaryOp("<", name(word), number(end))
        return c.For(count, below, c.UnaryOp("p++", name(word)), c.Compound(body(name(word)), place.coord), place.coord)

    # ---- local tables of many constants are copied from a static one

    def is_long_table(self, filled):
        return (
            filled.is_array
            and len(filled.values) > FEW
            and not self.kinds.is_array(filled.part_type(0))
            and all(self.is_constant(value) for value in filled.values.values())
        )

    def is_constant(self, value):
        if isinstance(value, Parts):
            return all(self.is_constant(part) for part in value.values.values())
        return not is_text(value) and self.kinds.is_constant(value)

    def copy_of_table(self, place, ty, filled):
        word = self.fresh.named(f"{self.function.decl.name}_table")
        length = filled.used_length()
        table = c.ArrayDecl(self.kinds.plain(ty).type, number(length), [], place.coord)
        self.before.append(declaration(word, table, self.listed(table, filled, None), ["static"], place.coord))
        copy = self.loop(0, length, place, lambda k: [assign(element(place, k), element(name(word), k))])
        return [copy] + self.zero_elements(place, filled.part_type(0), length, self.kinds.length(ty))

    # ---- file scope

    def static_object(self, node):
        if node.name:
            self.declare(node.name, node.type)
        if node.init is None or isinstance(node.type, c.FuncDecl):
            return node
        node.init = self.visit(node.init)
        self.give_length(node, node.init)
        filled = self.filler.fill(node.type, node.init)
        node.init = self.listed(node.type, filled, name(node.name, node.coord))
        return node

    def listed(self, ty, filled, place):
        """A list of constants, or an expression. What is no constant is assigned to its place later."""
        if filled is None:
            return self.zero_list(ty)
        if isinstance(filled, Parts):
            keys = range(max(filled.used_length(), 1))
            return c.InitList([self.listed_part(filled, key, place) for key in keys], place and place.coord)
        if is_text(filled) and self.kinds.is_array(ty):
            return filled
        constant = self.static_value(ty, filled)
        if constant is not None:
            return constant
        self.late.append(assign(place, filled))
        return self.zero_list(ty)

    def listed_part(self, filled, key, place):
        ty = filled.part_type(key)
        if place is not None:
            is_array, words = filled.is_array, self.kinds.members(filled.type) if not filled.is_array else None
            place = element(place, number(key)) if is_array else field(place, words[key][0])
        return self.listed(ty, filled.values.get(key), place)

    def zero_list(self, ty):
        if self.kinds.is_array(ty):
            return c.InitList([self.zero_list(self.kinds.plain(ty).type)])
        if self.kinds.is_struct(ty):
            return c.InitList([self.zero_list(self.kinds.members(ty)[0][1])])
        return number(0)

    def static_value(self, ty, value):
        """The value as the profile takes it for an object of static storage, or None."""
        if self.kinds.is_words(ty, ["_Bool"]) and self.kinds.value(value) is not None:
            return number(int(self.kinds.value(value) != 0), value.coord)
        if not self.kinds.is_pointer(ty):
            return value if self.kinds.is_constant(value) else None
        if self.is_null(value):
            return number(0, value.coord)
        return value if self.is_address(value) else None

    def is_null(self, value):
        """Whether it is the integer constant 0, maybe cast to pointer types."""
        if isinstance(value, c.Cast) and self.kinds.is_pointer(value.to_type):
            return self.is_null(value.expr)
        return self.kinds.value(value) == 0

    def is_address(self, value):
        """Whether it is a pointer to an object of static storage or to a part of one, of constants alone."""
        if is_text(value):
            return True
        if isinstance(value, c.Cast):
            return self.kinds.is_pointer(value.to_type) and self.is_address(value.expr)
        if isinstance(value, c.UnaryOp) and value.op == "&":
            return self.is_static_place(value.expr)
        if isinstance(value, c.BinaryOp) and value.op in ("+", "-"):
            pointer, integer = value.left, value.right
            if value.op == "+" and self.kinds.is_constant(pointer):
                pointer, integer = integer, pointer
            return self.kinds.is_constant(integer) and self.is_address(pointer)
        ty = self.type_of(value)
        return ty is not None and self.kinds.is_array(ty) and self.is_static_place(value)

    def is_static_place(self, place):
        """Whether it is an object of static storage or a part of one."""
        if isinstance(place, c.StructRef):
            return self.is_static_place(place.name) if place.type == "." else self.is_address(place.name)
        if isinstance(place, c.ArrayRef):
            return self.kinds.is_constant(place.subscript) and self.is_address(place.name)
        if isinstance(place, c.UnaryOp) and place.op == "*":
            return self.is_address(place.expr)
        return isinstance(place, c.ID)

    # ---- compound literals

    def visit_FuncDef(self, node):
        self.function = node
        return super().visit_FuncDef(node)

    def visit_Compound(self, node):
        self.scopes.append({})
        literals, self.literals = self.literals, []
        self.visit_children(node)
        node.block_items = self.literals + (node.block_items or [])
        self.literals = literals
        self.scopes.pop()
        return node

    def visit_For(self, node):
        """Declarations of a loop that become statements go in front of it."""
        self.scopes.append({})
        front = []
        if isinstance(node.init, c.DeclList):
            if any(self.needs_statements(decl.type, decl.init) for decl in node.init.decls if decl.init):
                front = self.visit_list(node.init.decls)
                node.init = None
        self.visit_children(node)
        self.scopes.pop()
        return c.Compound(front + [node], node.coord) if front else node

    def visit_UnaryOp(self, node):
        if node.op == "&" and isinstance(node.expr, c.CompoundLiteral) and len(self.scopes) == 1:
            return c.UnaryOp("&", self.static_literal(node.expr), node.coord)
        if node.op == "sizeof" and isinstance(node.expr, c.CompoundLiteral):
            decl = self.literal_object("literal", node.expr)
            return c.UnaryOp("sizeof", c.Typename(None, [], None, decl.type), node.coord)
        self.visit_children(node)
        if node.op == "&" and isinstance(node.expr, c.UnaryOp) and node.expr.op == "*":
            return node.expr.expr
        return node

    def visit_CompoundLiteral(self, node):
        if len(self.scopes) == 1:
            return self.static_literal(node)
        decl = self.literal_object("literal", node)
        self.literals.append(decl)
        self.declare(decl.name, decl.type)
        return self.literal_value(decl, self.begin(decl, node.init))

    def literal_object(self, word, node):
        decl = declaration(self.fresh.named(word), node.type.type, coord=node.coord)
        self.give_length(decl, node.init)
        return decl

    def literal_value(self, decl, statements):
        """The place of a literal, once its parts are assigned."""
        if any(not isinstance(statement, c.Assignment) for statement in statements):
            self.faults.note(decl, "compound literal of many parts")
            return name(decl.name, decl.coord)
        is_array = self.kinds.is_array(decl.type)
        place = element(name(decl.name), number(0)) if is_array else name(decl.name)
        address = c.ExprList(statements + [c.UnaryOp("&", place)], decl.coord)
        return address if is_array else c.UnaryOp("*", address, decl.coord)

    def static_literal(self, node):
        decl = self.literal_object("literal", node)
        decl.storage = ["static"]
        decl.init = node.init
        self.before.append(self.static_object(decl))
        return name(decl.name, node.coord)


def at(expression, place):
    """An expression with the place in the text that another one has, where it has none."""
    expression.coord = expression.coord or place.coord
    return expression


def field(place, word):
    return c.StructRef(place, ".", name(word), place.coord)


def element(place, key):
    return c.ArrayRef(place, key, place.coord)


def begin_at_main(unit, word, assignments):
    """Assigns what is no constant in a function that `main` calls first."""
    ty = c.FuncDecl(None, basic("void", word))
    decl = c.Decl(word, [], [], ["static"], [], ty, None, None, None)
    for place, external in enumerate(unit.ext):
        if isinstance(external, c.FuncDef) and external.decl.name == "main":
            call = c.FuncCall(name(word), None, external.coord)
            external.body.block_items = [call] + (external.body.block_items or [])
            unit.ext.insert(place, decl)
            break
    unit.ext.append(c.FuncDef(decl, None, c.Compound(assignments)))
