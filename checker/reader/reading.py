"""Reads a text: the model that it says, or the first refusal."""

from itertools import groupby

from reader.faults import by_command, faults, named
from reader.model import (Assignment, Chain, Clause, Command, Constant, For,
                          Model, Name, Not, Refusal, Row, Shared, Skip, Star)
from reader.notation import walk
from reader.tokens import BAD, NAME, cut

LONGEST_TEXT = 16384


def read(text):
    """A Model, or the Refusal that comes first."""
    if len(text) > LONGEST_TEXT:
        return Refusal(1, LONGEST_TEXT)
    parts, stop = walk(cut(text))
    found = list(faults(parts))
    if stop is not None:
        found.append(Refusal(2 if stop.kind == BAD else 3, stop.place))
    if found:
        return min(found, key=lambda fault: (fault.place, fault.number))
    return model_of(parts)


def model_of(parts):
    meanings = {part.token.small: kind(j)
                for kind, slot in ((Shared, "shared names"),
                                   (Row, "row names"))
                for j, part in enumerate(named(parts, slot))}
    return Model(
        names_of(parts, "shared names"),
        names_of(parts, "row names"),
        clause_of(parts, "start", meanings),
        clause_of(parts, "keep", meanings),
        tuple(command_of(run, meanings) for run in by_command(parts)))


def names_of(parts, slot):
    """As their declarations spell them."""
    return tuple(Name(part.token.word, part.token.place, part.token.length)
                 for part in named(parts, slot))


def clause_of(parts, word, meanings):
    return Clause(expression_in(parts, f"{word} shared", meanings),
                  expression_in(parts, f"{word} row", meanings))


def command_of(parts, meanings):
    stars = [part.token for part in parts if part.kind == "*"]
    # A star has no word of its own to be known by, so its place stands in.
    meanings = meanings | {token.place: Star(j)
                           for j, token in enumerate(stars)}
    return Command(names_of(parts, "command name")[0],
                   expression_in(parts, "test", meanings),
                   items_in(parts, "do", meanings),
                   items_in(parts, "else", meanings),
                   len(stars))


def items_in(parts, side, meanings):
    """The items of one side, cut at that side's own semicolons."""
    joints = (f"{side} value", f"{side} done")
    mine = [part for part in parts if part.slot.startswith(f"{side} ")]
    runs = split(mine, lambda part: part.kind == ";" and part.slot in joints)
    return tuple(item_of(run, side, meanings) for run in runs)


def item_of(parts, side, meanings):
    first = parts[0]
    if first.kind == "skip":
        return Skip()
    if first.kind == NAME:
        return Assignment(meanings[first.token.small],
                          expression_in(parts, f"{side} value", meanings))
    return For(expression_in(parts, f"{side} for condition", meanings),
               items_in(parts, f"{side} for do", meanings),
               items_in(parts, f"{side} for else", meanings))


def expression_in(parts, slot, meanings):
    """The one expression that stands in the slot."""
    tokens = [part.token for part in parts
              if part.slot == slot and part.inside]
    return expression_of(tokens, meanings)


def expression_of(tokens, meanings):
    """Splits at the operator that binds loosest, until one token is left."""
    for operator in ("or", "and"):
        pieces = split_outside(tokens, operator)
        if len(pieces) > 1:
            return chain(operator, [expression_of(piece, meanings)
                                    for piece in pieces])
    first = tokens[0]
    if first.kind == "not":
        return Not(expression_of(tokens[1:], meanings))
    if first.kind == "(":
        return expression_of(tokens[1:-1], meanings)
    if first.kind in ("0", "1"):
        return Constant(int(first.kind))
    return meanings[first.small if first.kind == NAME else first.place]


def chain(operator, parts):
    head = parts[0]
    if isinstance(head, Chain) and head.operator == operator:
        parts = list(head.parts) + parts[1:]
    return Chain(operator, tuple(parts))


def split(things, is_joint):
    return [list(run) for joint, run in groupby(things, is_joint) if not joint]


def split_outside(tokens, operator):
    """Cuts at each such operator that no parenthesis holds."""
    pieces = [[]]
    opened = 0
    for token in tokens:
        opened += {"(": 1, ")": -1}.get(token.kind, 0)
        if not opened and token.kind == operator:
            pieces.append([])
        else:
            pieces[-1].append(token)
    return pieces
