"""All steps, one behind the other."""

from pycparser import c_parser

from .booleans import turn_booleans
from .clean import PRELUDE, clean
from .faults import Faults, find_faults
from .gcc_words import turn_gcc_words
from .hoist import Fresh, Hoister, words_of
from .initialisers import Initialisers
from .kinds import Kinds
from .main_words import turn_main
from .old_style import turn_old_style
from .printer import print_unit
from .prune import prune


class NotRead(Exception):
    """The text is no C that the parser reads."""


def parse(text, file):
    try:
        return c_parser.CParser().parse(f'# 1 "built-in"\n{PRELUDE}# 1 "{file}"\n{text}', file)
    except c_parser.ParseError as fault:
        raise NotRead(str(fault)) from fault
    except AssertionError as fault:
        raise NotRead(f"{file}: {fault}") from fault


def turn(text, file, everything=False):
    """The text in the profile, and the lines that name what is not turned. With any of these there is no text."""
    cleaned = clean(text, file)
    faults = Faults(cleaned.faults)
    try:
        unit = parse(cleaned.text, file)
    except NotRead:
        if faults.found:
            return None, faults.lines()
        raise
    turn_old_style(unit)
    fresh = Fresh(words_of(unit))
    hoister = Hoister(unit, fresh)
    hoister.run()
    prune(unit, hoister, cleaned.system, everything)
    turn_gcc_words(unit, Kinds(unit))
    find_faults(unit, Kinds(unit), faults)
    if faults.found:
        return None, faults.lines()
    turn_main(unit, fresh)
    Initialisers(Kinds(unit), fresh, hoister.designators, faults).run(unit)
    turn_booleans(unit, Kinds(unit), faults)
    return (None if faults.found else print_unit(unit)), faults.lines()
