"""Which kind of token may stand where, as an automaton over slots.

Only parentheses nest without end, and only inside one expression, so a finite
table of slots and one count of open parentheses describe the whole notation.
Kinds of name, forbidden stars and limits are no concern of this module.
"""

from dataclasses import dataclass

from reader.tokens import NAME, TEXT_END, Token

OPERANDS = (NAME, "0", "1", "*")
OPERATORS = ("and", "or")

# Slots that hold an expression; their entry in FOLLOWING is what may end it.
SHARED_EXPRESSIONS = {"start shared", "keep shared", "test",
                      "do value", "else value"}
ROW_EXPRESSIONS = {"start row", "keep row"}

# Slots where an item begins.
ITEMS = {"do item", "else item"}
ROW_ITEMS = set()

FOLLOWING = {
    "model": {"shared": "shared names"},
    "shared names": {NAME: "shared names", ".": "row"},
    "row": {"row": "row names"},
    "row names": {NAME: "row names", ".": "start"},
    "start": {"start": "start shared"},
    "start shared": {"each": "start row"},
    "start row": {".": "keep"},
    "keep": {"keep": "keep shared"},
    "keep shared": {"each": "keep row"},
    "keep row": {".": "first command"},
    "first command": {"command": "command name"},
    "next command": {"command": "command name", TEXT_END: "read"},
    "command name": {NAME: "if"},
    "if": {"if": "test"},
    "test": {"do": "do item"},
}


def add_items(side, closing, after, loops):
    """The slots of one list of items, ended by the word `closing`."""
    joined = {";": f"{side} item", closing: after}
    first = {"skip": f"{side} done", NAME: f"{side} becomes"}
    if loops:
        first["for"] = f"{side} for condition"
    FOLLOWING.update({
        f"{side} item": first,
        f"{side} becomes": {":=": f"{side} value"},
        f"{side} value": joined,
        f"{side} done": joined,
    })


for _side, _closing, _after in (("do", "else", "else item"),
                                ("else", ".", "next command")):
    add_items(_side, _closing, _after, loops=True)
    add_items(f"{_side} for do", "else", f"{_side} for else item", loops=False)
    add_items(f"{_side} for else", "end", f"{_side} done", loops=False)
    FOLLOWING[f"{_side} for condition"] = {"do": f"{_side} for do item"}
    ROW_ITEMS |= {f"{_side} for do item", f"{_side} for else item"}
    ROW_EXPRESSIONS |= {f"{_side} for condition", f"{_side} for do value",
                        f"{_side} for else value"}

EXPRESSIONS = SHARED_EXPRESSIONS | ROW_EXPRESSIONS


@dataclass(frozen=True)
class Part:
    """A token that was allowed, the slot it stands in, and whether it belongs
    to that slot's expression rather than to what follows it."""

    token: Token
    slot: str
    inside: bool

    @property
    def kind(self):
        return self.token.kind


def walk(tokens):
    """The parts before the first token not allowed, and that token or None."""
    parts = []
    slot = "model"
    operand_due = False
    opened = 0
    for token in tokens:
        kind = token.kind
        inside = True
        if operand_due:
            if kind == "(":
                opened += 1
            elif kind in OPERANDS:
                operand_due = False
            elif kind != "not":
                return parts, token
        elif opened and kind == ")":
            opened -= 1
        elif slot in EXPRESSIONS and kind in OPERATORS:
            operand_due = True
        elif not opened and kind in FOLLOWING[slot]:
            inside = False
        else:
            return parts, token
        parts.append(Part(token, slot, inside))
        if not inside:
            slot = FOLLOWING[slot][kind]
            operand_due = slot in EXPRESSIONS
            if slot == "read":
                break
    return parts, None
