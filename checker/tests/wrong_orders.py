"""Programs that leave expressions out, tell others, or tell them in another
order: a corpus that does not tell them from the right one is too weak. Each
takes a text that says a model, a state and a choice word, and gives the
line."""

from dataclasses import replace

from evidence.one_row import OneRow
from evidence.values import expressions, in_items, nodes, told
from reader.model import Assignment, Constant, For, Skip
from tests.other_values import read_once


def by_order(found):
    """Tells these expressions of a table, in a state under a word."""
    def part(text, state, word):
        table = OneRow(read_once(text))
        return told([(table.value(tree, state, word), nodes(tree))
                     for tree in found(table, state, word)])
    return part


def by_parts(found):
    """Tells these, given the four of the clauses and those of commands."""
    def order(table, state, word):
        every = list(expressions(table.model))
        return found(every[:4], every[4:])
    return by_order(order)


# Not wrong: this is the order.
clauses_first = by_parts(lambda clauses, others: clauses + others)

without_clauses = by_parts(lambda clauses, others: others)
clauses_alone = by_parts(lambda clauses, others: clauses)
clauses_last = by_parts(lambda clauses, others: others + clauses)
keep_before_start = by_parts(
    lambda clauses, others: clauses[2:] + clauses[:2] + others)
start_for_keep = by_parts(
    lambda clauses, others: clauses[:2] + clauses[:2] + others)
each_before_shared = by_parts(
    lambda clauses, others: [clauses[j] for j in (1, 0, 3, 2)] + others)
without_each = by_parts(lambda clauses, others: clauses[::2] + others)
shared_parts_first = by_parts(
    lambda clauses, others: clauses[::2] + clauses[1::2] + others)
equal_ones_once = by_parts(
    lambda clauses, others: list(dict.fromkeys(clauses + others)))
backwards = by_parts(lambda clauses, others: (clauses + others)[::-1])


def by_commands(chosen):
    """Tells all of these commands."""
    return by_order(lambda table, *_: expressions(
        replace(table.model, commands=chosen(table.model.commands))))


first_command_alone = by_commands(lambda commands: commands[:1])
last_command_alone = by_commands(lambda commands: commands[-1:])
fifteen_commands = by_commands(lambda commands: commands[:15])
last_command_first = by_commands(lambda commands: commands[::-1])


def by_command(found):
    """Tells these of each command."""
    def order(table, state, word):
        yield from expressions(replace(table.model, commands=()))
        for command in table.model.commands:
            yield from found(command)
    return by_order(order)


without_tests = by_command(
    lambda command: in_items(command.yes + command.no))
tests_alone = by_command(lambda command: [command.test])
test_last = by_command(
    lambda command: [*in_items(command.yes + command.no), command.test])
without_else = by_command(
    lambda command: [command.test, *in_items(command.yes)])
without_do = by_command(
    lambda command: [command.test, *in_items(command.no)])
else_before_do = by_command(
    lambda command: [command.test, *in_items(command.no + command.yes)])
do_for_else = by_command(
    lambda command: [command.test, *in_items(command.yes + command.yes)])
loops_last = by_command(
    lambda command: [command.test, *in_items(sorted(
        command.yes + command.no, key=lambda item: isinstance(item, For)))])


def branch_taken(table, state, word):
    """Of a command only what would run."""
    yield from expressions(replace(table.model, commands=()))
    for command in table.model.commands:
        yield command.test
        yield from in_items(command.yes if table.value(
            command.test, state, word) else command.no)


branch_taken_alone = by_order(branch_taken)


def by_item(found):
    """Tells these of each item, where the function gives some, and else what
    is right."""
    def of_items(items):
        for item in items:
            told_of = found(item)
            yield from in_items([item]) if told_of is None else told_of
    return by_command(
        lambda command: [command.test, *of_items(command.yes + command.no)])


def by_loop(found):
    return by_item(lambda item: found(item) if isinstance(item, For) else None)


skips_too = by_item(
    lambda item: [Constant(1)] if isinstance(item, Skip) else None)
targets_too = by_item(
    lambda item: [item.target, item.value] if isinstance(item, Assignment)
    else None)
targets_alone = by_item(
    lambda item: [item.target] if isinstance(item, Assignment) else None)
without_values = by_item(
    lambda item: [] if isinstance(item, Assignment) else None)
without_loops = by_loop(lambda item: [])
without_conditions = by_loop(lambda item: in_items(item.yes + item.no))
conditions_alone = by_loop(lambda item: [item.condition])
condition_last = by_loop(
    lambda item: [*in_items(item.yes + item.no), item.condition])
without_row_else = by_loop(
    lambda item: [item.condition, *in_items(item.yes)])
without_row_do = by_loop(
    lambda item: [item.condition, *in_items(item.no)])
row_else_before_do = by_loop(
    lambda item: [item.condition, *in_items(item.no + item.yes)])
