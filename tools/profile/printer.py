"""Trees as text, with linemarkers wherever the next line is not the one behind the last."""

from pycparser import c_ast as c

from .tree import pointer_for

LEVELS = ["||", "&&", "|", "^", "&", "== !=", "< > <= >=", "<< >>", "+ -", "* / %"]
COMMA, ASSIGN, CHOICE = 0, 1, 2
BINARY = {op: CHOICE + 1 + level for level, ops in enumerate(LEVELS) for op in ops.split()}
CAST = CHOICE + 1 + len(LEVELS)
UNARY, POSTFIX = CAST + 1, CAST + 2
CLOSE = 12  # as many empty lines stand before a linemarker does


# ---- expressions


def expression(node, level=COMMA):
    """The text of an expression, in brackets where it binds weaker than the level."""
    text, own = globals()["text_of_" + type(node).__name__](node)
    return f"({text})" if own < level else text


def text_of_ID(node):
    return node.name, POSTFIX


def text_of_Constant(node):
    return literal(node), POSTFIX


def literal(node):
    if node.value[0] in "\"'":
        return node.value
    digits = node.value.rstrip("uUlL")
    suffix = node.value[len(digits) :].lower().replace("ll", "l")
    if digits.lower().startswith("0b"):
        digits = hex(int(digits, 2))
    return digits + suffix.upper()


def text_of_ExprList(node):
    return ", ".join(expression(part, ASSIGN) for part in node.exprs), COMMA


def text_of_Assignment(node):
    return f"{expression(node.lvalue, UNARY)} {node.op} {expression(node.rvalue, ASSIGN)}", ASSIGN


def text_of_TernaryOp(node):
    holds, fails = expression(node.iftrue), expression(node.iffalse, CHOICE)
    return f"{expression(node.cond, CHOICE + 1)} ? {holds} : {fails}", CHOICE


def text_of_BinaryOp(node):
    level = BINARY[node.op]
    return f"{expression(node.left, level)} {node.op} {expression(node.right, level + 1)}", level


def text_of_Cast(node):
    return f"({type_name(node.to_type)}){expression(node.expr, CAST)}", CAST


def text_of_UnaryOp(node):
    if node.op in ("p++", "p--"):
        return expression(node.expr, POSTFIX) + node.op[1:], POSTFIX
    if node.op == "sizeof":
        operand = node.expr
        if isinstance(operand, c.Typename):
            return f"sizeof({type_name(operand)})", UNARY
        return "sizeof " + expression(operand, UNARY), UNARY
    operand = expression(node.expr, UNARY if node.op in ("++", "--") else CAST)
    gap = " " if node.op[-1] in "+-&" and operand.startswith(node.op[-1]) else ""
    return node.op + gap + operand, UNARY


def text_of_ArrayRef(node):
    return f"{expression(node.name, POSTFIX)}[{expression(node.subscript)}]", POSTFIX


def text_of_StructRef(node):
    return f"{expression(node.name, POSTFIX)}{node.type}{node.field.name}", POSTFIX


def text_of_FuncCall(node):
    arguments = [expression(part, ASSIGN) for part in node.args.exprs] if node.args else []
    return f"{expression(node.name, POSTFIX)}({', '.join(arguments)})", POSTFIX


def initialiser(node):
    if isinstance(node, c.InitList):
        return "{" + ", ".join(initialiser(part) for part in node.exprs) + "}"
    return expression(node, ASSIGN)


# ---- declarations


def specifier(node):
    """The words of a type, `long long` as `long`."""
    if isinstance(node, c.IdentifierType):
        words = list(node.names)
        while words.count("long") > 1:
            words.remove("long")
        if "char" in words and "signed" in words:
            words.remove("signed")
        return " ".join(words)
    kind = {c.Struct: "struct", c.Union: "union", c.Enum: "enum"}[type(node)]
    return f"{kind} {node.name}"


def const(quals):
    return "const " if "const" in (quals or []) else ""


def declarator(ty, text):
    """The specifier of a type, and the declarator round what it declares."""
    if isinstance(ty, c.PtrDecl):
        inner = "*" + const(ty.quals) + text
        return declarator(ty.type, f"({inner})" if isinstance(ty.type, (c.ArrayDecl, c.FuncDecl)) else inner)
    if isinstance(ty, c.ArrayDecl):
        return declarator(ty.type, f"{text}[{expression(ty.dim) if ty.dim is not None else ''}]")
    if isinstance(ty, c.FuncDecl):
        return declarator(ty.type, f"{text}({parameter_list(ty)})")
    if isinstance(ty, (c.TypeDecl, c.Typename)):
        base = ty.type
        if isinstance(base, (c.PtrDecl, c.ArrayDecl, c.FuncDecl, c.TypeDecl)):
            return declarator(base, text)
        return const(ty.quals) + specifier(base), text
    return specifier(ty), text


def parameter_list(ty):
    if ty.args is None or not ty.args.params:
        return "void"
    return ", ".join(parameter(each) for each in ty.args.params)


def parameter(node):
    if isinstance(node, c.EllipsisParam):
        return "..."
    return joined(*declarator(pointer_for(node.type), getattr(node, "name", None) or ""))


def joined(words, text):
    return f"{words} {text}" if text else words


def type_name(node):
    return joined(*declarator(node.type, ""))


def storage(words):
    return "".join(word + " " for word in words if word in ("static", "extern", "typedef"))


def constant(node):
    return node.name + (f" = {expression(node.value, CHOICE)}" if node.value is not None else "")


def tag_lines(ty):
    if isinstance(ty, c.Enum):
        rows = [constant(each) for each in ty.values.enumerators]
        head = f"enum {ty.name} {{" if ty.name else "enum {"
        return [head] + [f"    {row}," for row in rows[:-1]] + [f"    {rows[-1]}", "};"]
    rows = [joined(*declarator(member.type, member.name)) + ";" for member in ty.decls if isinstance(member, c.Decl)]
    return [specifier(ty) + " {"] + ["    " + row for row in rows] + ["};"]


def declared(node):
    """A declaration without its semicolon."""
    return storage(node.storage) + joined(*declarator(node.type, node.name or "")) + beginning(node)


def beginning(node):
    return f" = {initialiser(node.init)}" if node.init is not None else ""


def declarations(nodes):
    """The declarations of a `for`, which share their words."""
    pairs = [declarator(node.type, node.name) for node in nodes]
    texts = [text + beginning(node) for node, (_, text) in zip(nodes, pairs)]
    return f"{pairs[0][0]} {', '.join(texts)}"


# ---- statements


class Printer:
    """Lines of text with the places that they come from."""

    def __init__(self):
        self.lines = []
        self.depth = 0

    def line(self, text, coord=None):
        self.lines.append((coord, "    " * self.depth + text))

    def external(self, node):
        if isinstance(node, c.FuncDef):
            self.line(declared(node.decl), node.coord)
            self.line("{")
            self.inside(node.body)
            self.line("}")
        elif isinstance(node, c.Typedef):
            self.line(f"typedef {joined(*declarator(node.type, node.name))};", node.coord)
        elif isinstance(node, c.Decl):
            self.declaration(node)

    def declaration(self, node):
        ty = node.type
        if getattr(ty, "decls", None) is not None or getattr(ty, "values", None) is not None:
            for k, text in enumerate(tag_lines(ty)):
                self.line(text, node.coord if k == 0 else None)
        else:
            self.line(declared(node) + ";", node.coord)

    def inside(self, node):
        self.depth += 1
        for item in node.block_items or []:
            self.statement(item)
        self.depth -= 1

    def statement(self, node):
        rule = getattr(self, "print_" + type(node).__name__, None)
        if rule:
            rule(node)
        else:
            self.line(expression(node) + ";", node.coord)

    def body(self, head, node, coord):
        """A line that begins a statement, and the statement within it."""
        if isinstance(node, c.Compound):
            self.line(head + " {", coord)
            self.inside(node)
            self.line("}")
        else:
            self.line(head, coord)
            self.depth += 1
            self.statement(node)
            self.depth -= 1

    def print_Compound(self, node):
        self.line("{", node.coord)
        self.inside(node)
        self.line("}")

    def print_Decl(self, node):
        self.declaration(node)

    def print_EmptyStatement(self, node):
        self.line(";", node.coord)

    def print_StaticAssert(self, node):
        pass

    def print_Pragma(self, node):
        pass

    def print_If(self, node, head="if"):
        text = f"{head} ({expression(node.cond)})"
        holds = node.iftrue
        if node.iffalse is not None and ends_with_if(holds):
            holds = c.Compound([holds], holds.coord)
        self.body(text, holds, node.coord)
        if isinstance(node.iffalse, c.If):
            self.print_If(node.iffalse, "else if")
        elif node.iffalse is not None:
            self.body("else", node.iffalse, None)

    def print_While(self, node):
        self.body(f"while ({expression(node.cond)})", node.stmt, node.coord)

    def print_DoWhile(self, node):
        self.body("do", node.stmt, node.coord)
        self.line(f"while ({expression(node.cond)});")

    def print_For(self, node):
        first = declarations(node.init.decls) if isinstance(node.init, c.DeclList) else optional(node.init)
        self.body(f"for ({first};{optional(node.cond, ' ')};{optional(node.next, ' ')})", node.stmt, node.coord)

    def print_Switch(self, node):
        self.body(f"switch ({expression(node.cond)})", node.stmt, node.coord)

    def print_Case(self, node):
        self.line(f"case {expression(node.expr, CHOICE)}:", node.coord)
        self.labelled(node)

    def print_Default(self, node):
        self.line("default:", node.coord)
        self.labelled(node)

    def labelled(self, node):
        self.depth += 1
        for item in node.stmts or []:
            self.statement(item)
        self.depth -= 1

    def print_Break(self, node):
        self.line("break;", node.coord)

    def print_Continue(self, node):
        self.line("continue;", node.coord)

    def print_Return(self, node):
        self.line("return;" if node.expr is None else f"return {expression(node.expr)};", node.coord)


def optional(node, gap=""):
    return "" if node is None else gap + expression(node)


def ends_with_if(node):
    """Whether an `else` behind a statement would belong to an `if` within it."""
    while isinstance(node, (c.While, c.For)):
        node = node.stmt
    return isinstance(node, c.If)


class Layout:
    """Lines of output that stand as many lines below each other as in the text that they come from."""

    def __init__(self):
        self.out = []
        self.file, self.line = None, 0
        self.waiting = []

    def add(self, text):
        self.out.append(text)
        self.line += 1

    def join(self, text):
        self.out[-1] += " " + text.lstrip()

    def put_waiting(self, room):
        """Lines of no place of their own: each on a line where there is room, else behind what stands there."""
        for text in self.waiting:
            if room >= len(self.waiting) or not self.out:
                self.add(text)
            else:
                self.join(text)
        self.waiting = []

    def put(self, coord, text):
        if coord is None or not coord.line:
            self.waiting.append(text)
        elif coord.file == self.file and 0 <= coord.line - self.line <= CLOSE:
            self.put_waiting(coord.line - self.line - 1)
            self.go_to(coord.line, text)
        else:
            self.put_waiting(len(self.waiting))
            self.out.append(f'# {coord.line} "{coord.file}"')
            self.file, self.line = coord.file, coord.line - 1
            self.add(text)

    def go_to(self, line, text):
        if line == self.line:
            self.join(text)
            return
        while self.line < line - 1:
            self.add("")
        self.add(text)

    def text(self):
        self.put_waiting(len(self.waiting))
        return "".join(line + "\n" for line in self.out)


def print_unit(unit):
    printer = Printer()
    for external in unit.ext:
        printer.external(external)
    layout = Layout()
    for coord, text in printer.lines:
        layout.put(coord, text)
    return layout.text()
