"""Programs whose passes or sums are wrong in one way: a corpus that does not
tell them from the right one is too weak. Each takes a text that says a model,
a state and a choice word, and gives the line."""

from evidence.one_row import OneRow
from evidence.values import expressions, nodes, told
from reader.model import Chain, Constant, Not, Row, Shared, Star
from tests.other_values import count, pieces, read_once


def right_pairs(text, state, word):
    model = read_once(text)
    table = OneRow(model)
    return [(table.value(tree, state, word), nodes(tree))
            for tree in expressions(model)]


def by_passes(passes):
    """Right but for the passes of an expression."""
    def part(text, state, word):
        model = read_once(text)
        table = OneRow(model)
        return told([(table.value(tree, state, word), passes(tree))
                     for tree in expressions(model)])
    return part


def all_nodes(tree):
    """The tree and all that is below it."""
    yield tree
    below = (tree.parts if isinstance(tree, Chain)
             else [tree.operand] if isinstance(tree, Not) else ())
    for part in below:
        yield from all_nodes(part)


def how_many(tree, kind):
    return len([one for one in all_nodes(tree) if isinstance(one, kind)])


def height(tree):
    if isinstance(tree, Not):
        return 1 + height(tree.operand)
    if isinstance(tree, Chain):
        return 1 + max(map(height, tree.parts))
    return 1


one_too_many = by_passes(lambda tree: nodes(tree) + 1)
one_too_few = by_passes(lambda tree: nodes(tree) - 1)
one_in_all = by_passes(lambda tree: 1)
nots_uncounted = by_passes(lambda tree: nodes(tree) - how_many(tree, Not))
constants_uncounted = by_passes(
    lambda tree: nodes(tree) - how_many(tree, Constant))
names_uncounted = by_passes(
    lambda tree: nodes(tree) - how_many(tree, (Shared, Row)))
stars_uncounted = by_passes(lambda tree: nodes(tree) - how_many(tree, Star))
operators_alone = by_passes(
    lambda tree: nodes(tree) - how_many(tree, (Constant, Star, Shared, Row)))
operands_alone = by_passes(
    lambda tree: how_many(tree, (Constant, Star, Shared, Row)))
chains_as_one = by_passes(lambda tree: len(list(all_nodes(tree))))
operators_after_each_operand = by_passes(
    lambda tree: nodes(tree) + how_many(tree, Chain))
by_height = by_passes(height)
equal_nodes_once = by_passes(lambda tree: len(set(all_nodes(tree))))
in_a_byte = by_passes(lambda tree: nodes(tree) % 256)
at_most_255 = by_passes(lambda tree: min(255, nodes(tree)))
three_digits = by_passes(lambda tree: nodes(tree) % 1000)


def decided(table, tree, state, word):
    """The passes of a program that looks at no operand once the value is
    known."""
    if isinstance(tree, Not):
        return 1 + decided(table, tree.operand, state, word)
    if not isinstance(tree, Chain):
        return 1
    passes = -1
    for part in tree.parts:
        passes += 1 + decided(table, part, state, word)
        if table.value(part, state, word) == (tree.operator == "or"):
            break
    return passes


def until_decided(text, state, word):
    table = OneRow(read_once(text))
    return told([(table.value(tree, state, word),
                  decided(table, tree, state, word))
                 for tree in expressions(table.model)])


def by_pieces(passes):
    """Passes by the tokens of an expression."""
    def part(text, state, word):
        said = right_pairs(text, state, word)
        return told([(value, passes(tokens)) for (value, _), tokens
                     in zip(said, pieces(text))])
    return part


# Not wrong: parentheses apart, tokens are nodes.
by_tokens_counted = by_pieces(count)

parentheses_counted = by_pieces(len)
pairs_of_parentheses_counted = by_pieces(
    lambda tokens: count(tokens) + tokens.count("("))


def with_sum(pairs, total):
    *said, _ = told(pairs).split(" ")
    return " ".join(said + [str(total)])


def sum_of(pairs):
    return sum(passes for _, passes in pairs)


def by_pairs(change):
    """Other values and passes are told; the sum is right."""
    def part(text, state, word):
        pairs = right_pairs(text, state, word)
        return with_sum(change(pairs), sum_of(pairs))
    return part


def added_up(pairs):
    total = 0
    for value, passes in pairs:
        total += passes
        yield value, total


running_passes = by_pairs(lambda pairs: list(added_up(pairs)))
passes_before_value = by_pairs(
    lambda pairs: [(passes, int(value)) for value, passes in pairs])
last_untold = by_pairs(lambda pairs: pairs[:-1])


def by_total(total):
    """Right but for the sum."""
    def part(text, state, word):
        pairs = right_pairs(text, state, word)
        return with_sum(pairs, total(pairs))
    return part


sum_without_clauses = by_total(lambda pairs: sum_of(pairs[4:]))
sum_of_clauses = by_total(lambda pairs: sum_of(pairs[:4]))
sum_without_last = by_total(lambda pairs: sum_of(pairs[:-1]))
sum_without_first = by_total(lambda pairs: sum_of(pairs[1:]))
sum_of_values = by_total(lambda pairs: sum(value for value, _ in pairs))
sum_of_true = by_total(lambda pairs: sum_of(pair for pair in pairs if pair[0]))
sum_in_a_byte = by_total(lambda pairs: sum_of(pairs) % 256)
sum_below_1024 = by_total(lambda pairs: sum_of(pairs) % 1024)
three_digits_of_sum = by_total(lambda pairs: sum_of(pairs) % 1000)
largest_for_sum = by_total(
    lambda pairs: max(passes for _, passes in pairs))
last_for_sum = by_total(lambda pairs: pairs[-1][1])
how_many_for_sum = by_total(len)
