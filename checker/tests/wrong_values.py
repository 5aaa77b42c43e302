"""Programs that value expressions in a wrong way, each in one: a corpus that
does not tell them from the right one is too weak. Each takes a text that says
a model, a state and a choice word, and gives the line."""

from dataclasses import replace

from evidence.one_row import OneRow
from evidence.values import expressions, in_items, line, nodes, told
from reader.model import (Assignment, Chain, Constant, For, Not, Row, Shared,
                          Star)
from tests.other_values import read_once


def by_table(table):
    """Another table values the expressions."""
    def part(text, state, word):
        model = read_once(text)
        return told([(table(model).value(tree, state, word), nodes(tree))
                     for tree in expressions(model)])
    return part


def by_nodes(change):
    """Each node is taken for another one."""
    class Changed(OneRow):
        def value(self, tree, state, word):
            return super().value(change(tree), state, word)
    return by_table(Changed)


def of_kind(kind, change):
    """The nodes of one kind are taken for others."""
    return by_nodes(lambda tree: change(tree) if isinstance(tree, kind)
                    else tree)


and_for_or = of_kind(Chain, lambda tree: replace(tree, operator="and"))
or_for_and = of_kind(Chain, lambda tree: replace(tree, operator="or"))
first_two_operands = of_kind(
    Chain, lambda tree: replace(tree, parts=tree.parts[:2]))
without_last_operand = of_kind(
    Chain, lambda tree: replace(tree, parts=tree.parts[:-1]))
without_first_operand = of_kind(
    Chain, lambda tree: replace(tree, parts=tree.parts[1:]))
last_operand_alone = of_kind(
    Chain, lambda tree: replace(tree, parts=tree.parts[-1:]))
zero_for_one = of_kind(Constant, lambda tree: Constant(0))
one_for_zero = of_kind(Constant, lambda tree: Constant(1))
names_for_constants = of_kind(Constant, lambda tree: Shared(tree.value))
names_for_stars = of_kind(Star, lambda tree: Shared(tree.index))
first_star_for_all = of_kind(Star, lambda tree: Star(0))
stars_from_one = of_kind(Star, lambda tree: Star(tree.index + 1))
stars_from_the_last_bit = of_kind(Star, lambda tree: Star(7 - tree.index))
stars_true = of_kind(Star, lambda tree: Constant(1))


class NotLeftOut(OneRow):
    def value(self, tree, state, word):
        while isinstance(tree, Not):
            tree = tree.operand
        return super().value(tree, state, word)


class TwoNotsForOne(OneRow):
    """Takes `not not` for `not`."""

    def value(self, tree, state, word):
        while isinstance(tree, Not) and isinstance(tree.operand, Not):
            tree = tree.operand
        return super().value(tree, state, word)


class NamesByWord(OneRow):
    """Looks the bits of names up in the word."""

    def value(self, tree, state, word):
        if isinstance(tree, (Shared, Row)):
            state = word
        return super().value(tree, state, word)


class OneOfMany(OneRow):
    """Takes `or` for: an odd number of them."""

    def value(self, tree, state, word):
        if isinstance(tree, Chain) and tree.operator == "or":
            return sum(self.value(part, state, word)
                       for part in tree.parts) % 2 == 1
        return super().value(tree, state, word)


not_left_out = by_table(NotLeftOut)
two_nots_for_one = by_table(TwoNotsForOne)
names_by_word = by_table(NamesByWord)
one_of_many = by_table(OneOfMany)


def by_bits(bit):
    """Names have other bits."""
    class Changed(OneRow):
        def bit_of(self, name):
            return bit(self, name)
    return by_table(Changed)


def own_bit(table, name):
    return OneRow.bit_of(table, name)


state_bits_reversed = by_bits(
    lambda table, name: table.names - 1 - own_bit(table, name))
names_from_one = by_bits(lambda table, name: own_bit(table, name) + 1)
row_names_from_zero = by_bits(lambda table, name: name.index)
row_names_from_eight = by_bits(
    lambda table, name: name.index + (8 if isinstance(name, Row) else 0))
row_names_below_shared = by_bits(
    lambda table, name: name.index + (
        0 if isinstance(name, Row) else table.names - table.shared))
shared_names_reversed = by_bits(
    lambda table, name: own_bit(table, name) if isinstance(name, Row)
    else table.shared - 1 - name.index)
row_names_reversed = by_bits(
    lambda table, name: table.names - 1 - name.index
    if isinstance(name, Row) else name.index)
first_name_for_all = by_bits(lambda table, name: 0)


def by_state(change):
    """Values are those in another state."""
    def part(text, state, word):
        table = OneRow(read_once(text))
        return told([(table.value(tree, change(state), word), nodes(tree))
                     for tree in expressions(table.model)])
    return part


states_in_a_byte = by_state(lambda state: state % 256)
states_below_2048 = by_state(lambda state: state % 2048)
three_digits_of_state = by_state(lambda state: state % 1000)
first_state = by_state(lambda state: 0)
next_state = by_state(lambda state: state + 1)


def state_and_word_exchanged(text, state, word):
    return line(text, word, state)


def by_word(change):
    """Values are those under another word, which the number of the command's
    stars may decide."""
    def part(text, state, word):
        model = read_once(text)
        table = OneRow(model)
        stars = [0] * 4
        for command in model.commands:
            own = [command.test, *in_items(command.yes), *in_items(command.no)]
            stars += [command.stars] * len(own)
        return told([(table.value(tree, state, change(word, most)),
                      nodes(tree))
                     for tree, most in zip(expressions(model), stars)])
    return part


# Not wrong: a command has no stars beyond.
words_cut_to_stars = by_word(lambda word, stars: word % (1 << stars))

words_reversed = by_word(lambda word, stars: sum(
    1 << stars - 1 - j for j in range(stars) if word >> j & 1))
words_below_128 = by_word(lambda word, stars: word % 128)
words_below_64 = by_word(lambda word, stars: word % 64)
two_digits_of_word = by_word(lambda word, stars: word % 100)
no_word = by_word(lambda word, stars: 0)
none_where_beyond_the_stars = by_word(
    lambda word, stars: word if word < 1 << stars else 0)
full_where_beyond_the_stars = by_word(
    lambda word, stars: word if word < 1 << stars else (1 << stars) - 1)


def running(table, items, state, word):
    """The values where each item sees what those before it wrote."""
    for item in items:
        if isinstance(item, Assignment):
            yield table.value(item.value, state, word)
        elif isinstance(item, For):
            yield table.value(item.condition, state, word)
            yield from running(table, item.yes, state, word)
            yield from running(table, item.no, state, word)
        state = table.after([item], state, word)


def by_run(step, seen):
    """The state changes from command to command, or within a command."""
    def part(text, state, word):
        model = read_once(text)
        table = OneRow(model)
        said = [table.value(tree, state, word)
                for tree in expressions(replace(model, commands=()))]
        for number, command in enumerate(model.commands):
            said.append(table.value(command.test, state, word))
            said += seen(table, command.yes, state, word)
            said += seen(table, command.no, state, word)
            state = step(table, state, number, word)
        return told(list(zip(said, map(nodes, expressions(model)))))
    return part


def still(table, items, state, word):
    return [table.value(tree, state, word) for tree in in_items(items)]


after_items_before = by_run(lambda table, state, *_: state, running)
after_commands_before = by_run(OneRow.step, still)
