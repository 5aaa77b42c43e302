"""The flat form of a read model, and the answer line for a text."""

from reader.model import (Assignment, Chain, Constant, Not, Refusal, Row,
                          Shared, Skip, Star)
from reader.reading import read

NAMES = 32
STARS = 64
NOT = 96
OPERATORS = {"and": 128, "or": 160}
ASSIGN = 192
THEN = 224
OTHERWISE = 256
CLOSE = 288
SKIP = 320


def number(name, shared):
    """A name's number: shared names first, row names after all of them."""
    return name.index + (shared if isinstance(name, Row) else 0)


def expression(tree, shared):
    if isinstance(tree, Constant):
        return [tree.value]
    if isinstance(tree, (Shared, Row)):
        return [NAMES + number(tree, shared)]
    if isinstance(tree, Star):
        return [STARS + tree.index]
    if isinstance(tree, Not):
        return expression(tree.operand, shared) + [NOT]
    assert isinstance(tree, Chain)
    codes = expression(tree.parts[0], shared)
    for part in tree.parts[1:]:
        codes += expression(part, shared) + [OPERATORS[tree.operator]]
    return codes


def item(one, shared):
    if isinstance(one, Skip):
        return [SKIP]
    if isinstance(one, Assignment):
        return (expression(one.value, shared)
                + [ASSIGN + number(one.target, shared)])
    return branches(one.condition, one.yes, one.no, shared)


def branches(condition, yes, no, shared):
    codes = expression(condition, shared) + [THEN]
    for one in yes:
        codes += item(one, shared)
    codes.append(OTHERWISE)
    for one in no:
        codes += item(one, shared)
    return codes + [CLOSE]


def segments(model):
    shared = len(model.shared)
    for clause in (model.start, model.keep):
        yield expression(clause.shared, shared)
        yield expression(clause.row, shared)
    for command in model.commands:
        yield branches(command.test, command.yes, command.no, shared)


def line(text):
    """The answer line: a refusal, or the whole flat form."""
    answer = read(text)
    if isinstance(answer, Refusal):
        return f"refused {answer.number} {answer.place}"
    words = ["model", len(answer.shared), len(answer.row),
             len(answer.commands), "stars"]
    words += [command.stars for command in answer.commands]
    words.append("names")
    declared = (answer.shared + answer.row
                + tuple(command.name for command in answer.commands))
    for name in declared:
        words += [name.place, name.length]
    codes = []
    ends = []
    for segment in segments(answer):
        codes += segment
        ends.append(len(codes))
    words += ["ends", *ends, "code", *codes]
    return " ".join(map(str, words))
