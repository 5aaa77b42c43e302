"""Each expression of a model by itself: its value in one state under one
choice word, and its number of nodes, which is that of the passes over it."""

from evidence.one_row import OneRow
from reader.model import Assignment, Chain, For, Not, Refusal
from reader.reading import read


def nodes(tree):
    """Names, constants, stars and operators; a chain has one operator fewer
    than parts."""
    if isinstance(tree, Not):
        return 1 + nodes(tree.operand)
    if isinstance(tree, Chain):
        return len(tree.parts) - 1 + sum(map(nodes, tree.parts))
    return 1


def in_items(items):
    for item in items:
        if isinstance(item, Assignment):
            yield item.value
        elif isinstance(item, For):
            yield item.condition
            yield from in_items(item.yes)
            yield from in_items(item.no)


def expressions(model):
    """All that stand in the model, in text order."""
    for clause in (model.start, model.keep):
        yield clause.shared
        yield clause.row
    for command in model.commands:
        yield command.test
        yield from in_items(command.yes)
        yield from in_items(command.no)


def told(pairs):
    """The line of these values and passes."""
    words = ["values"]
    for value, passes in pairs:
        words += [int(value), passes]
    words += ["passes", sum(passes for _, passes in pairs)]
    return " ".join(map(str, words))


def line(text, state, word):
    """The answer line: a refusal, or all values and passes. No expression
    sees what an item before it would write."""
    model = read(text)
    if isinstance(model, Refusal):
        return f"refused {model.number} {model.place}"
    table = OneRow(model)
    return told([(table.value(tree, state, word), nodes(tree))
                 for tree in expressions(model)])
