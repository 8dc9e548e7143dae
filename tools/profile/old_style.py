"""Definitions in the old style, declarations without parameters, and functions that are called before they are declared
(C90 6.5.4.3, 6.7.1)."""

from pycparser import c_ast as c

from .tree import basic, declaration, parameters, walk


def is_old(function):
    return any(isinstance(parameter, c.ID) for parameter in parameters(function.decl.type))


def turn_definition(function):
    """Gives a definition in the old style a list of parameters with their types."""
    declared = {decl.name: decl for decl in function.param_decls or []}
    args = function.decl.type.args
    args.params = [
        declared.get(word.name) or declaration(word.name, basic("int"), coord=word.coord) for word in args.params
    ]
    function.param_decls = None


def parameter_lists(unit):
    """The lists of parameters of the functions that have one, by name."""
    lists = {}
    for external in unit.ext:
        decl = external.decl if isinstance(external, c.FuncDef) else external
        if isinstance(decl, c.Decl) and isinstance(decl.type, c.FuncDecl) and decl.type.args:
            lists.setdefault(decl.name, decl.type.args)
    return lists


def one_int():
    return c.ParamList([c.Typename(None, [], None, basic("int"))])


def complete_declarations(unit):
    """Gives a declaration with empty brackets the parameters that another one has, or that a built-in function has."""
    lists = {"putchar": one_int(), "exit": one_int(), **parameter_lists(unit)}
    for node in walk(unit):
        if isinstance(node, c.Decl) and isinstance(node.type, c.FuncDecl) and node.type.args is None:
            node.type.args = lists.get(node.name)


def prototype(function):
    """The declaration of a function that is defined."""
    decl = function.decl
    storage = [word for word in decl.storage if word == "static"]
    return c.Decl(decl.name, [], [], storage, [], decl.type, None, None, function.coord)


def called(function):
    calls = (node for node in walk(function.body) if isinstance(node, c.FuncCall))
    return {call.name.name for call in calls if isinstance(call.name, c.ID)}


def declare_early(unit):
    """Declares each function that is called in front of its definition and was not declared."""
    definitions = {external.decl.name: external for external in unit.ext if isinstance(external, c.FuncDef)}
    declared, out = set(), []
    for external in unit.ext:
        if isinstance(external, c.FuncDef):
            declared.add(external.decl.name)
            for word in sorted(called(external) - declared):
                if word in definitions:
                    declared.add(word)
                    out.append(prototype(definitions[word]))
        elif isinstance(external, c.Decl):
            declared.add(external.name)
        out.append(external)
    unit.ext = out


def turn_old_style(unit):
    for external in unit.ext:
        if isinstance(external, c.FuncDef) and is_old(external):
            turn_definition(external)
    complete_declarations(unit)
    declare_early(unit)
