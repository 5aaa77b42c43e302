"""From a model to Promela: its table of one row, the property asserted."""

import sys

from reading import (Assignment, Chain, Constant, For, Not, Refusal, Row, Star,
                     read)

SIGNS = {"and": " && ", "or": " || "}

PROGRAM = """bit {bits};

active proctype table()
{{
    atomic {{
        {states}
        if :: {start} :: else -> goto none fi;
        assert({keep})
    }};
    do
{commands}
    od;
none:
    skip
}}
"""

# All choices are made first, as a choice word has them, and cleared at the
# end, so that they tell no states apart.
COMMAND = """    :: atomic {{
        {choices}
        d_step {{ {body}; {cleared} }};
        assert({keep})
    }}"""


def name(model, number):
    """Prefixed, for a name of the notation may be a word of Promela."""
    return f"n_{(model.shared + model.row)[number].word}"


def bit(model, tree):
    if isinstance(tree, Star):
        return f"c_{tree.index}"
    return name(model, tree.index
                + (len(model.shared) if isinstance(tree, Row) else 0))


def value(model, tree):
    if isinstance(tree, Constant):
        return str(tree.value)
    if isinstance(tree, Not):
        return f"!{value(model, tree.operand)}"
    if isinstance(tree, Chain):
        parts = [value(model, part) for part in tree.parts]
        return f"({SIGNS[tree.operator].join(parts)})"
    return bit(model, tree)


def branches(model, test, yes, no):
    return (f"if :: {value(model, test)} -> {items(model, yes)}"
            f" :: else -> {items(model, no)} fi")


def item(model, thing):
    if isinstance(thing, Assignment):
        return f"{bit(model, thing.target)} = {value(model, thing.value)}"
    if isinstance(thing, For):
        return branches(model, thing.condition, thing.yes, thing.no)
    return "skip"


def items(model, things):
    return "; ".join(item(model, thing) for thing in things)


def holds(model, clause):
    return f"({value(model, clause.shared)} && {value(model, clause.row)})"


def chosen(bits):
    return " ".join(f"if :: {each} = 0 :: {each} = 1 fi;" for each in bits)


def choices(stars):
    return [f"c_{j}" for j in range(stars)]


def command(model, one):
    stars = choices(one.stars)
    return COMMAND.format(
        choices=chosen(stars),
        body=branches(model, one.test, one.yes, one.no),
        cleared="; ".join(f"{star} = 0" for star in stars) or "skip",
        keep=holds(model, model.keep))


def promela(text):
    model = read(text)
    if isinstance(model, Refusal):
        sys.exit(f"refused {model.number} {model.place}")
    names = [name(model, j) for j in range(len(model.shared + model.row))]
    stars = choices(max(one.stars for one in model.commands))
    return PROGRAM.format(
        # A model may have neither names nor stars, Promela needs a bit.
        bits=", ".join(names + stars or ["unused"]),
        states=chosen(names),
        start=holds(model, model.start),
        keep=holds(model, model.keep),
        commands="\n".join(command(model, one) for one in model.commands))
