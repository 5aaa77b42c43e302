"""The notation as rules, to tell in which role a token stands and what may
come next. Kinds of name, forbidden stars and limits are not told here."""

from dataclasses import dataclass
from functools import cache

from tokens import NAME, Token

TEXT_END = "the end of the text"

# The symbols that declare a name, each with what it declares.
DECLARING = {"shared name": "a shared name", "row name": "a row name",
             "title": "a command"}

# A symbol with its alternatives; what is no symbol is a token's kind. No two
# alternatives begin alike, so the next token picks one.
RULES = {
    "model": [["shared", "shared names", "row", "row names",
               "start", "clause", "keep", "clause", "commands"]],
    "shared names": [["shared name", "shared names"], ["."]],
    "shared name": [[NAME]],
    "row names": [["row name", "row names"], ["."]],
    "row name": [[NAME]],
    "clause": [["expression", "each", "expression", "."]],
    "commands": [["command", "title", "if", "expression", "do", "items",
                  "else", "items", ".", "more commands"]],
    "title": [[NAME]],
    "more commands": [["commands"], []],
    "items": [["item", "more items"]],
    "more items": [[";", "items"], []],
    "item": [["skip"], [NAME, ":=", "expression"],
             ["for", "expression", "do", "row items", "else", "row items",
              "end"]],
    "row items": [["row item", "more row items"]],
    "more row items": [[";", "row items"], []],
    "row item": [["skip"], [NAME, ":=", "expression"]],
    "expression": [["operand", "more operands"]],
    "more operands": [["and", "expression"], ["or", "expression"], []],
    "operand": [[NAME], ["0"], ["1"], ["*"], ["not", "operand"],
                ["(", "expression", ")"]],
}


@dataclass(frozen=True)
class Part:
    """A token that the notation allows. Its role is the symbol that it begins
    as its first token, if there is one."""

    token: Token
    role: str

    @property
    def kind(self):
        return self.token.kind


@cache
def beginnings(symbol):
    """The kinds of token that a symbol can begin with."""
    if symbol not in RULES:
        return [symbol]
    return [kind for alternative in RULES[symbol] if alternative
            for kind in beginnings(alternative[0])]


def next_kinds(stack):
    """What may come next where the symbols of the stack, top last, are due."""
    kinds = []
    for symbol in reversed(stack):
        kinds += beginnings(symbol)
        if [] not in RULES.get(symbol, []):
            return kinds
    return kinds + [TEXT_END]


def taken(stack, kind):
    """Takes a token that may come next from the stack; its role."""
    role, symbol = "", stack.pop()
    while symbol != kind:
        fitting = [alternative for alternative in RULES[symbol]
                   if alternative and kind in beginnings(alternative[0])]
        role = symbol if fitting else ""
        stack.extend(reversed(fitting[0] if fitting else []))
        symbol = stack.pop()
    return role


def walk(tokens):
    """The parts before the first token that is not allowed, and what kinds
    are allowed behind them."""
    parts, stack = [], ["model"]
    for token in tokens:
        if token.kind not in next_kinds(stack):
            break
        parts.append(Part(token, taken(stack, token.kind)))
    return parts, next_kinds(stack)


def in_roles(parts, *roles):
    return [part for part in parts if part.role in roles]


def declarations(parts):
    """The part that declares each name, by the name in small letters."""
    return {part.token.folded: part for part in in_roles(parts, *DECLARING)}


def commands_in(parts):
    """The parts of each command."""
    runs = []
    for part in parts:
        if part.kind == "command":
            runs.append([])
        if runs:
            runs[-1].append(part)
    return runs
