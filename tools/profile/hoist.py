"""What the profile has at file scope alone goes there: the bodies of structs and enums, and within functions typedefs,
prototypes and objects that are static. Names of theirs are new, and so are locals that would hide a typedef name."""

from pycparser import c_ast as c

from .faults import Faults
from .kinds import Kinds
from .parts import Filler, length_by
from .tree import Begin, Transformer, name, number, parameters, rename_declared, walk


def words_of(unit):
    """All words that a unit uses for anything."""
    words = set()
    for node in walk(unit):
        for slot in ("name", "declname"):
            word = getattr(node, slot, None)
            if isinstance(word, str):
                words.add(word)
        if isinstance(node, c.IdentifierType):
            words.update(node.names)
    return words


class Fresh:
    """Names that nothing has yet."""

    def __init__(self, words):
        self.words = words

    def named(self, word):
        k, new = 1, word
        while new in self.words:
            k, new = k + 1, f"{word}_{k + 1}"
        self.words.add(new)
        return new


class Scope:
    def __init__(self):
        self.names, self.tags, self.types = {}, {}, {}


class Hoister(Transformer):
    """Each external declaration gives itself, behind what goes to file scope out of it."""

    def __init__(self, unit, fresh):
        self.unit, self.fresh = unit, fresh
        self.typedefs = {node.name for node in unit.ext if isinstance(node, c.Typedef)}
        self.kinds = Kinds(unit)
        self.kinds.look_up = self.type_named
        self.scopes = []
        self.before = []
        self.bodies = {}
        self.function = None
        self.uses = set()
        self.designators = {}
        self.hoisted = set()
        self.used = {}
        self.filler = Filler(self.kinds, self.designators, self.type_of, Faults())

    # ---- names

    def bound(self, table, word):
        """What a word stands for by the scopes of the function at hand, or None."""
        for scope in reversed(self.scopes):
            if word in getattr(scope, table):
                return getattr(scope, table)[word]
        return None

    def bind(self, word, new, ty=None):
        self.scopes[-1].names[word] = new
        if ty is not None:
            self.scopes[-1].types[new] = ty

    def type_named(self, word):
        return self.bound("types", word) or self.kinds.names.get(word)

    def type_of(self, expression):
        return self.kinds.type_of(expression, self.type_named)

    def new_name(self, word):
        return self.fresh.named(f"{self.function}_{word}")

    def bind_new(self, word, ty=None):
        """Binds a word to a new name at file scope."""
        new = self.new_name(word)
        self.bind(word, new, ty)
        self.hoisted.add(new)
        return new

    # ---- externals

    def run(self):
        out = []
        for external in self.unit.ext:
            self.before, self.uses = [], set()
            new = self.external(external)
            self.used[id(new)] = self.uses
            out.extend(self.before)
            if not is_emptied(new):
                out.append(new)
        self.unit.ext = out
        self.complete_lengths()

    def complete_lengths(self):
        """Gives an array that is declared without a length the one that another declaration has."""
        arrays = [node for node in self.unit.ext if isinstance(node, c.Decl) and isinstance(node.type, c.ArrayDecl)]
        lengths = {node.name: node.type.dim for node in arrays if node.type.dim is not None}
        for node in arrays:
            node.type.dim = node.type.dim or lengths.get(node.name)

    def external(self, external):
        if not isinstance(external, c.FuncDef):
            return self.visit(external)
        self.function = external.decl.name
        external.decl.type = self.visit(external.decl.type)
        self.scopes.append(Scope())
        for parameter in parameters(external.decl.type):
            if isinstance(parameter, c.Decl):
                self.declare_local(parameter)
        external.body = self.visit_children(external.body)
        self.scopes.pop()
        self.function = None
        return external

    # ---- structs and enums

    def visit_Struct(self, node):
        return self.tagged(node, node.decls)

    visit_Union = visit_Struct

    def visit_Enum(self, node):
        return self.tagged(node, node.values)

    def tagged(self, node, body):
        if body is None:
            node.name = self.bound("tags", node.name) or node.name
            return node
        if id(node) not in self.bodies:
            self.bodies[id(node)] = (node, self.take_body(node))
        return self.bodies[id(node)][1]

    def take_body(self, node):
        """Declares a body at file scope, and gives the type that stands for it."""
        kind = type(node)
        if isinstance(node, c.Enum) and node.name is None:
            self.take_constants(node)
            self.before.append(bare(node))
            return c.IdentifierType(["int"], node.coord)
        word = self.tag(node)
        reference = kind(word, None, node.coord)
        if isinstance(node, c.Enum):
            self.take_constants(node)
        body = kind(word, node.values if isinstance(node, c.Enum) else node.decls, node.coord)
        if not isinstance(node, c.Enum):
            self.visit_members(body)
            self.kinds.declare_tag(body)
        self.before.append(bare(body))
        return reference

    def visit_members(self, node):
        for member in node.decls:
            if isinstance(member, c.Decl):
                member.type = self.visit(member.type)

    def visit_ParamList(self, node):
        """Parameters, of which no names are in scope outside a definition."""
        for parameter in node.params:
            if isinstance(parameter, (c.Decl, c.Typename)):
                parameter.type = self.visit(parameter.type)
        return node

    def tag(self, node):
        kind = {c.Struct: "struct", c.Union: "union", c.Enum: "enum"}[type(node)]
        if node.name is None:
            return self.fresh.named(f"{self.function or 'unnamed'}_{kind}")
        if not self.scopes:
            return node.name
        self.scopes[-1].tags[node.name] = self.new_name(node.name)
        return self.scopes[-1].tags[node.name]

    def take_constants(self, node):
        for constant in node.values.enumerators:
            if constant.value is not None:
                constant.value = self.known(self.visit(constant.value))
            if self.scopes:
                constant.name = self.bind_new(constant.name)
        self.kinds.declare_tag(node)

    # ---- declarations

    def known(self, expression):
        """A constant that names locals, as under `sizeof`, by its value, since it goes where they are not in scope."""
        if not self.scopes or not any(isinstance(node, c.ID) for node in walk(expression)):
            return expression
        value = self.kinds.value(expression)
        return expression if value is None else number(value, expression.coord)

    def visit_ArrayDecl(self, node):
        self.visit_children(node)
        if node.dim is not None:
            node.dim = self.known(node.dim)
        return node

    def give_length(self, node):
        """An array without a length takes it from its initialiser."""
        if isinstance(node.type, c.ArrayDecl) and node.type.dim is None and node.init is not None:
            node.type.dim = number(length_by(self.filler.fill(node.type, node.init)), node.coord)

    def visit_Decl(self, node):
        node.type = self.visit(node.type)
        if not self.scopes:
            if node.init is not None:
                node.init = self.visit(node.init)
            self.give_length(node)
            return node
        if node.name is None:
            return []
        if isinstance(node.type, c.FuncDecl) or "extern" in node.storage:
            self.bind(node.name, node.name)
            self.uses.add(node.name)
            self.before.append(node)
            return []
        if "static" in node.storage or self.is_constant_table(node):
            return self.take_static(node)
        self.declare_local(node)
        if node.init is not None:
            node.init = self.visit(node.init)
        self.give_length(node)
        return node

    def declare_local(self, node):
        """A local keeps its name, unless that is one of a type."""
        new = self.fresh.named(node.name + "_") if node.name in self.typedefs else node.name
        self.bind(node.name, new, node.type)
        if new != node.name:
            node.name = new
            rename_declared(node.type, new)

    def is_constant_table(self, node):
        """A local array that is only read and begins with constants may as well be static."""
        ty = node.type
        if not isinstance(ty, c.ArrayDecl) or not isinstance(node.init, (c.InitList, c.Constant)):
            return False
        while isinstance(ty, c.ArrayDecl):
            ty = ty.type
        return "const" in ty.quals and all(self.is_local_constant(leaf) for leaf in walk(node.init))

    def is_local_constant(self, leaf):
        if isinstance(leaf, c.ID):
            word = self.bound("names", leaf.name) or leaf.name
            return word in self.kinds.constants
        return not isinstance(leaf, (c.FuncCall, c.Assignment, c.ArrayRef, c.StructRef, c.CompoundLiteral))

    def take_static(self, node):
        new = self.bind_new(node.name, node.type)
        node.name, node.storage = new, ["static"]
        rename_declared(node.type, new)
        if node.init is not None:
            node.init = self.visit(node.init)
        self.give_length(node)
        self.before.append(node)
        return []

    def visit_Typedef(self, node):
        node.type = self.visit(node.type)
        if not self.scopes:
            return node
        node.name = self.bind_new(node.name)
        rename_declared(node.type, node.name)
        self.kinds.typedefs[node.name] = node.type
        self.before.append(node)
        return []

    def visit_IdentifierType(self, node):
        new = self.bound("names", node.names[-1]) if len(node.names) == 1 else None
        return c.IdentifierType([new], node.coord) if new else node

    # ---- uses

    def visit_ID(self, node):
        if node.name == "__func__":
            return c.Constant("string", f'"{self.function}"', node.coord)
        new = self.bound("names", node.name)
        if new is None or new in self.hoisted:
            self.uses.add(new or node.name)
        return name(new, node.coord) if new else node

    def visit_StructRef(self, node):
        node.name = self.visit(node.name)
        return node

    def visit_NamedInitializer(self, node):
        """A designator may be a member or a constant: which one it is, its type says."""
        for designator in node.name:
            if isinstance(designator, c.ID):
                new = self.bound("names", designator.name)
                self.uses.add(new or designator.name)
                if new:
                    self.designators[id(designator)] = (designator, new)
        node.name = [part if isinstance(part, c.ID) else self.visit(part) for part in node.name]
        node.expr = self.visit(node.expr)
        return node

    # ---- scopes

    def visit_Compound(self, node):
        self.scopes.append(Scope())
        self.visit_children(node)
        self.scopes.pop()
        return node

    def visit_For(self, node):
        self.scopes.append(Scope())
        self.visit_children(node)
        self.scopes.pop()
        if isinstance(node.init, c.DeclList) and not node.init.decls:
            node.init = None
        return node

    def visit_Switch(self, node):
        """Declarations directly in a switch go in front of it."""
        node.cond = self.visit(node.cond)
        if not isinstance(node.stmt, c.Compound):
            node.stmt = c.Compound([node.stmt], node.coord)
        self.scopes.append(Scope())
        moved = []
        for label in node.stmt.block_items or []:
            if isinstance(label, c.Case):
                label.expr = self.visit(label.expr)
        for group in switch_groups(node.stmt):
            group[:] = [new for old in group for new in self.switch_item(old, moved)]
        self.scopes.pop()
        return c.Compound(moved + [node], node.coord) if moved else node

    def switch_item(self, node, moved):
        new = self.visit(node)
        if not isinstance(new, c.Decl):
            return new if isinstance(new, list) else [new]
        word = self.new_name(new.name)
        self.bind(node.name, word, new.type)
        init, new.init = new.init, None
        new.name = word
        rename_declared(new.type, word)
        moved.append(new)
        return [Begin(new, init, new.coord)] if init is not None else []


def switch_groups(compound):
    """The lists of statements that stand directly in the braces of a switch, with the labels themselves."""
    items = compound.block_items or []
    groups = [item.stmts for item in items if isinstance(item, (c.Case, c.Default))]
    front = [item for item in items if not isinstance(item, (c.Case, c.Default))]
    compound.block_items = [item for item in items if isinstance(item, (c.Case, c.Default))]
    return ([front] if front else []) + groups


def bare(ty):
    """A declaration that declares a tag alone."""
    return c.Decl(None, [], [], [], [], ty, None, None, ty.coord)


def is_emptied(external):
    """A declaration whose body went in front of it, with nothing left to declare."""
    return external == [] or isinstance(external, c.Decl) and external.name is None and not has_body(external.type)


def has_body(ty):
    return getattr(ty, "decls", None) is not None or getattr(ty, "values", None) is not None
