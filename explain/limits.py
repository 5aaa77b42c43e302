"""Which limit a token goes over, counted in text order up to that token."""

from notation import commands_in, in_roles

SHARED, ROW = "shared names", "row names"
TOGETHER = "shared and row names together"
COMMANDS, ITEMS, NODES = "commands", "items", "expression nodes"
STARS = "stars in a command"
DEPTH = "open parentheses and `not` above a place"

MOST = {SHARED: 8, ROW: 10, TOGETHER: 12, COMMANDS: 16, ITEMS: 256,
        NODES: 1024, STARS: 8, DEPTH: 16}


def all_limits():
    return "; ".join(f"{most:,} {what}" for what, most in MOST.items())


def depth(parts):
    """A `not` is above its operand alone, a parenthesis above all it holds."""
    above = []
    for part in parts:
        if part.kind in ("(", "not"):
            above.append(part.kind)
            continue
        if part.kind == ")":
            above.pop()
        if part.kind == ")" or part.role == "operand":
            while above and above[-1] == "not":
                above.pop()
    return len(above)


def counts(parts):
    shared = len(in_roles(parts, "shared name"))
    row = len(in_roles(parts, "row name"))
    nodes = in_roles(parts, "operand", "more operands")
    last = commands_in(parts)[-1:]
    return {
        SHARED: shared,
        ROW: row,
        TOGETHER: shared + row,
        COMMANDS: len(in_roles(parts, "commands")),
        ITEMS: len(in_roles(parts, "item", "row item")),
        NODES: len([part for part in nodes if part.kind != "("]),
        STARS: sum(part.kind == "*" for run in last for part in run),
        DEPTH: depth(parts),
    }


def gone_over(parts):
    """The limits that the last part goes over, where all before kept them."""
    return [what for what, count in counts(parts).items()
            if count > MOST[what]]
