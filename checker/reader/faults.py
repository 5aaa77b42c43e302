"""Faults of tokens that the notation allows: names, stars and limits.

Each kind of fault is looked for by itself over all parts; which of them comes
first is decided by the reader. Past a first fault the findings may be
meaningless, which does no harm as they stand at later tokens.
"""

from reader.model import Refusal
from reader.notation import (ITEMS, OPERANDS, OPERATORS, ROW_ITEMS,
                             SHARED_EXPRESSIONS)
from reader.tokens import NAME

MOST_SHARED = 8
MOST_ROW = 10
MOST_TOGETHER = 12
MOST_COMMANDS = 16
MOST_ITEMS = 256
MOST_NODES = 1024
MOST_STARS = 8
MOST_DEPTH = 16

NODES = OPERANDS + OPERATORS + ("not",)
DECLARING = ("shared names", "row names", "command name")


def named(parts, *slots):
    """The parts that are names standing directly in one of the slots."""
    return [part for part in parts
            if part.kind == NAME and not part.inside and part.slot in slots]


def repeated(parts):
    seen = set()
    for part in named(parts, *DECLARING):
        if part.token.small in seen:
            yield Refusal(4, part.token.place)
        seen.add(part.token.small)


def misused(parts):
    """Names read or assigned that are not declared with a fitting kind.

    Shared and row names are all declared before the first use of any name,
    and a command's name never fits.
    """
    shared = {part.token.small for part in named(parts, "shared names")}
    row = {part.token.small for part in named(parts, "row names")}
    for part in parts:
        if part.kind != NAME:
            continue
        if part.inside:
            fitting = (shared if part.slot in SHARED_EXPRESSIONS
                       else shared | row)
        elif part.slot in ITEMS:
            fitting = shared
        elif part.slot in ROW_ITEMS:
            fitting = row
        else:
            continue
        if part.token.small not in fitting:
            yield Refusal(5, part.token.place)


def forbidden_stars(parts):
    for part in parts:
        if part.kind == "*" and part.slot.startswith(("start ", "keep ")):
            yield Refusal(6, part.token.place)


def by_command(parts):
    """The parts of each command, from its word `command` on."""
    runs = []
    for part in parts:
        if part.kind == "command":
            runs.append([])
        if runs:
            runs[-1].append(part)
    return runs


def beyond_limits(parts):
    commands = by_command(parts)
    counted = [
        (MOST_SHARED, named(parts, "shared names")),
        (MOST_ROW, named(parts, "row names")),
        (MOST_TOGETHER, named(parts, "shared names", "row names")),
        (MOST_COMMANDS, [run[0] for run in commands]),
        (MOST_ITEMS, [part for part in parts
                      if part.slot in ITEMS | ROW_ITEMS]),
        (MOST_NODES, [part for part in parts
                      if part.inside and part.kind in NODES]),
    ]
    counted += [(MOST_STARS, [part for part in run if part.kind == "*"])
                for run in commands]
    for most, found in counted:
        for part in found[most:]:
            yield Refusal(7, part.token.place)


def too_deep(parts):
    """A `not` is above its operand only, a parenthesis above all it holds."""
    above = []
    for part in parts:
        if part.kind in ("(", "not"):
            above.append(part.kind)
            if len(above) > MOST_DEPTH:
                yield Refusal(7, part.token.place)
            continue
        if part.kind == ")":
            above.pop()
        if part.inside and part.kind in OPERANDS + (")",):
            while above and above[-1] == "not":
                above.pop()


def faults(parts):
    for look in (repeated, misused, forbidden_stars, beyond_limits, too_deep):
        yield from look(parts)
