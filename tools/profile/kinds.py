"""What the names of a unit mean: types with their sizes, and the values of integer constants."""

from pycparser import c_ast as c

from .constants import SIGNS, Constants, is_text, text_bytes
from .tree import basic, children, parameters

INT = basic("int")
LONG = basic("unsigned long")
CHAR = basic("char")
OPERATORS = {*SIGNS, "!"}


class Kinds:
    """The types of a unit: what its typedef names, tags, constants and objects of file scope are."""

    def __init__(self, unit):
        self.typedefs = {}
        self.structs = {}
        self.constants = {}
        self.names = {}
        self.look_up = self.names.get
        for external in unit.ext:
            self.declare(external)

    def declare(self, external):
        if isinstance(external, c.Typedef):
            self.typedefs[external.name] = external.type
        elif isinstance(external, c.FuncDef):
            self.names[external.decl.name] = external.decl.type
        elif isinstance(external, c.Decl):
            if external.name:
                self.names[external.name] = external.type
            self.declare_tag(external.type)

    def declare_tag(self, ty):
        if isinstance(ty, c.Struct) and ty.decls is not None:
            self.structs[ty.name] = [(member.name, member.type) for member in ty.decls if isinstance(member, c.Decl)]
        elif isinstance(ty, c.Enum) and ty.values is not None:
            value = -1
            for constant in ty.values.enumerators:
                value = value + 1 if constant.value is None else self.value(constant.value)
                self.constants[constant.name] = 0 if value is None else value
                value = self.constants[constant.name]

    # ---- types

    def plain(self, ty):
        """A type without typedef names and qualifiers round it."""
        while True:
            if isinstance(ty, (c.TypeDecl, c.Typename)):
                ty = ty.type
            elif isinstance(ty, c.IdentifierType) and ty.names[-1] in self.typedefs:
                ty = self.typedefs[ty.names[-1]]
            else:
                return ty

    def is_array(self, ty):
        return isinstance(self.plain(ty), c.ArrayDecl)

    def is_struct(self, ty):
        return isinstance(self.plain(ty), c.Struct)

    def is_aggregate(self, ty):
        return self.is_array(ty) or self.is_struct(ty)

    def is_pointer(self, ty):
        return isinstance(self.plain(ty), (c.PtrDecl, c.ArrayDecl))

    def is_words(self, ty, words):
        plain = self.plain(ty)
        return isinstance(plain, c.IdentifierType) and plain.names == words

    def is_characters(self, ty):
        """Whether a text may initialise objects of a type."""
        plain = self.plain(ty)
        if not isinstance(plain, c.ArrayDecl):
            return False
        element = self.plain(plain.type)
        return isinstance(element, c.IdentifierType) and "char" in element.names

    def length(self, ty):
        """The length of an array, or None where it has none yet."""
        plain = self.plain(ty)
        return None if plain.dim is None else self.value(plain.dim)

    def members(self, ty):
        return self.structs.get(self.plain(ty).name) or []

    def member(self, ty, word):
        return dict(self.members(ty)).get(word)

    # ---- sizes

    def size(self, ty):
        plain = self.plain(ty)
        if isinstance(plain, c.ArrayDecl):
            length, element = self.length(plain), self.size(plain.type)
            return None if length is None or element is None else length * element
        if isinstance(plain, c.Struct):
            return self.places(plain)[1]
        return self.basic_size(plain)

    @staticmethod
    def basic_size(plain):
        if isinstance(plain, c.PtrDecl):
            return 8
        if isinstance(plain, c.Enum):
            return 4
        if isinstance(plain, c.IdentifierType):
            sizes = [("char", 1), ("_Bool", 1), ("short", 2), ("long", 8), ("int", 4), ("signed", 4), ("unsigned", 4)]
            return next((size for word, size in sizes if word in plain.names), None)
        return None

    def alignment(self, ty):
        plain = self.plain(ty)
        if isinstance(plain, c.ArrayDecl):
            return self.alignment(plain.type)
        if isinstance(plain, c.Struct):
            return max([self.alignment(member) for _, member in self.members(plain)], default=1)
        return self.basic_size(plain) or 1

    def places(self, ty):
        """The places of the members of a struct, and its size."""
        end, places = 0, {}
        for word, member in self.members(ty):
            size = self.size(member)
            if size is None:
                return places, None
            places[word] = self.up(end, self.alignment(member))
            end = places[word] + size
        return places, self.up(end, self.alignment(ty)) or None

    @staticmethod
    def up(place, alignment):
        return -(-place // alignment) * alignment

    # ---- integer constants

    def value(self, expression):
        """The value of an integer constant, as a whole number, or None."""
        word = Constants(self).word(expression)
        return None if word is None else word.value

    def size_of_operand(self, operand):
        ty = operand if isinstance(operand, c.Typename) else self.type_of(operand, self.look_up)
        return None if ty is None else self.size(ty)

    def integer_type(self, ty):
        """The size of an integer type and whether it has a sign, or None; `_Bool` by its name."""
        plain = self.plain(ty)
        if isinstance(plain, c.Enum):
            return 4, True
        if not isinstance(plain, c.IdentifierType) or self.basic_size(plain) is None:
            return None
        return "_Bool" if plain.names == ["_Bool"] else (self.basic_size(plain), "unsigned" not in plain.names)

    def offset(self, call):
        """The place of a member, of `offsetof`."""
        if not (isinstance(call.name, c.ID) and call.name.name == "offsetof" and call.args):
            return None
        ty, designator = call.args.exprs
        return self.designated_place(ty, designator)

    def designated_place(self, ty, designator):
        if isinstance(designator, c.ID):
            return self.places(ty)[0].get(designator.name)
        if isinstance(designator, c.StructRef):
            base = self.designated_place(ty, designator.name)
            inner = self.designated_type(ty, designator.name)
            place = self.places(inner)[0].get(designator.field.name) if inner is not None else None
            return None if base is None or place is None else base + place
        if isinstance(designator, c.ArrayRef):
            base = self.designated_place(ty, designator.name)
            inner = self.designated_type(ty, designator)
            index = self.value(designator.subscript)
            return None if None in (base, index) or inner is None else base + index * self.size(inner)
        return None

    def designated_type(self, ty, designator):
        if isinstance(designator, c.ID):
            return self.member(ty, designator.name)
        inner = self.designated_type(ty, designator.name)
        if inner is None:
            return None
        if isinstance(designator, c.StructRef):
            return self.member(inner, designator.field.name)
        return self.plain(inner).type

    # ---- what objects of static storage may begin with

    def is_constant(self, expression):
        """Whether an expression is built as an integer constant is, or is a text."""
        if isinstance(expression, c.Constant):
            return True
        if isinstance(expression, c.ID):
            return expression.name in self.constants
        if isinstance(expression, c.UnaryOp):
            return expression.op == "sizeof" or (expression.op in OPERATORS and self.is_constant(expression.expr))
        if isinstance(expression, (c.BinaryOp, c.TernaryOp)):
            return all(self.is_constant(part) for part in children(expression))
        if isinstance(expression, c.Cast):
            return self.size(expression.to_type) is not None and self.is_constant(expression.expr)
        if isinstance(expression, c.InitList):
            return all(self.is_constant(part) for part in expression.exprs)
        return isinstance(expression, c.NamedInitializer) and self.is_constant(expression.expr)

    # ---- the types of expressions, so far as the steps ask for them

    def type_of(self, expression, type_named):
        """The type of an expression, an `int` standing for each other arithmetic one of an operator; or None."""
        rule = getattr(self, "type_of_" + type(expression).__name__, None)
        return rule(expression, type_named) if rule else None

    def type_of_ID(self, expression, type_named):
        return INT if expression.name in self.constants else type_named(expression.name)

    def type_of_Constant(self, expression, type_named):
        if not is_text(expression):
            return INT
        length = c.Constant("int", str(len(text_bytes(expression)) + 1))
        return c.ArrayDecl(CHAR, length, [])

    def type_of_FuncCall(self, expression, type_named):
        ty = self.type_of(expression.name, type_named)
        plain = None if ty is None else self.plain(ty)
        return plain.type if isinstance(plain, c.FuncDecl) else None

    def type_of_StructRef(self, expression, type_named):
        ty = self.type_of(expression.name, type_named)
        if ty is not None and expression.type == "->":
            ty = self.target(ty)
        return self.member(ty, expression.field.name) if ty is not None and self.is_struct(ty) else None

    def target(self, ty):
        return self.plain(ty).type if self.is_pointer(ty) else None

    def type_of_ArrayRef(self, expression, type_named):
        for part in (expression.name, expression.subscript):
            ty = self.type_of(part, type_named)
            if ty is not None and self.is_pointer(ty):
                return self.target(ty)
        return None

    def type_of_UnaryOp(self, expression, type_named):
        if expression.op == "sizeof":
            return LONG
        ty = self.type_of(expression.expr, type_named)
        if expression.op == "&":
            return None if ty is None else c.PtrDecl([], ty)
        if expression.op == "*":
            return None if ty is None else self.target(ty)
        return INT if expression.op in OPERATORS else ty

    def type_of_BinaryOp(self, expression, type_named):
        types = [self.type_of(part, type_named) for part in (expression.left, expression.right)]
        pointers = [ty for ty in types if ty is not None and self.is_pointer(ty)]
        if len(pointers) == 1 and expression.op in ("+", "-"):
            return c.PtrDecl([], self.target(pointers[0]))
        return None if None in types and expression.op in ("+", "-") else INT

    def type_of_Assignment(self, expression, type_named):
        return self.type_of(expression.lvalue, type_named)

    def type_of_TernaryOp(self, expression, type_named):
        types = [self.type_of(part, type_named) for part in (expression.iftrue, expression.iffalse)]
        return next((ty for ty in types if ty is not None and self.is_pointer(ty)), types[0])

    def type_of_ExprList(self, expression, type_named):
        return self.type_of(expression.exprs[-1], type_named)

    def type_of_Cast(self, expression, type_named):
        return expression.to_type

    def type_of_CompoundLiteral(self, expression, type_named):
        return expression.type


def takes_any_number(ty):
    return isinstance(ty, c.FuncDecl) and any(isinstance(each, c.EllipsisParam) for each in parameters(ty))
