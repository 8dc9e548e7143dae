"""Keeps what `main` reaches: headers bring in much that no program uses."""

from pycparser import c_ast as c

from .tree import walk

KINDS = {c.Struct: "struct ", c.Union: "union ", c.Enum: "enum "}


def names_declared(external):
    """The names that an external declares, tags with the word in front of them."""
    if isinstance(external, c.FuncDef):
        return {external.decl.name}
    names = {external.name} if getattr(external, "name", None) else set()
    ty = getattr(external, "type", None)
    if isinstance(external, c.Decl) and type(ty) in KINDS:
        names.add(KINDS[type(ty)] + (ty.name or ""))
        if isinstance(ty, c.Enum) and ty.values:
            names.update(constant.name for constant in ty.values.enumerators)
    return names


def words_used(external, hoister):
    """The names of file scope that an external uses. Those of a definition are known by its scopes."""
    words = set()
    is_function = isinstance(external, c.FuncDef)
    for node in walk(external):
        if isinstance(node, c.IdentifierType):
            words.update(node.names)
        elif type(node) in KINDS and node.name:
            words.add(KINDS[type(node)] + node.name)
        elif isinstance(node, c.ID) and not is_function:
            words.add(node.name)
    return words | hoister.used.get(id(external), set()) if is_function else words


def roots(unit, system, everything):
    functions = [external for external in unit.ext if isinstance(external, c.FuncDef)]
    if not everything and any(function.decl.name == "main" for function in functions):
        return {"main"}
    return {function.decl.name for function in functions if function.coord.file not in system}


def prune(unit, hoister, system, everything=False):
    by_name = {}
    for external in unit.ext:
        for word in names_declared(external):
            by_name.setdefault(word, []).append(external)
    kept, todo, seen = set(), list(roots(unit, system, everything)), set()
    while todo:
        word = todo.pop()
        if word in seen:
            continue
        seen.add(word)
        for external in by_name.get(word, []):
            if id(external) not in kept:
                kept.add(id(external))
                todo.extend(words_used(external, hoister))
    unit.ext = [external for external in unit.ext if id(external) in kept]
