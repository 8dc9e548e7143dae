"""`main` takes nothing in the profile: its parameters become locals, as of a program that is run with no words."""

from pycparser import c_ast as c

from .tree import basic, declaration, name, number, pointer_for


def words_object(word, coord):
    """The array that `argv` leads to: the name of the program, which is empty, and null."""
    ty = c.ArrayDecl(c.PtrDecl([], basic("char", word)), number(2), [], coord)
    return declaration(word, ty, c.InitList([c.Constant("string", '""')]), ["static"], coord)


def turn_main(unit, fresh):
    for place, external in enumerate(unit.ext):
        if not isinstance(external, c.FuncDef) or external.decl.name != "main":
            continue
        ty = external.decl.type
        taken = [parameter for parameter in (ty.args.params if ty.args else []) if getattr(parameter, "name", None)]
        ty.args = None
        if not taken:
            return
        word = fresh.named("main_words")
        values = [number(1), name(word), c.BinaryOp("+", name(word), number(1))]
        locals_ = [
            declaration(parameter.name, pointer_for(parameter.type), value, coord=external.coord)
            for parameter, value in zip(taken, values)
        ]
        external.body.block_items = locals_ + (external.body.block_items or [])
        unit.ext.insert(place, words_object(word, external.coord))
        return
