"""Traces in which any command may come at any time: all states break, so that
any run passes.

They are written in letters, a for command 0, b for command 1 and so on. The
names of the commands are in another order than the commands themselves.
"""

from functools import cache

from evidence.sheets import trace_sheet
from inputs.cases import table_of
from inputs.phrases import command, loop, model, numbered

LETTERS = "abcdefghijklmnop"
# The most steps that a sheet has room for.
MOST_STEPS = 6551


def free(shared, row, items):
    """A model with a command for each of these lists of items."""
    names = LETTERS[:len(items)][::-1]
    return model(shared, row, keep=("0", "1"),
                 commands=[command(name, yes=one)
                           for name, one in zip(names, items)])


def setting(number):
    """The choice word becomes the low byte of the state, and this number the
    high one."""
    low = "; ".join(f"s{j} := *" for j in range(8))
    high = "; ".join(f"r{j} := {number >> j & 1}" for j in range(4))
    return f"{low}; {loop(yes=high)}"


@cache
def lettered(count):
    """So many commands; a step by one of them leads to the state of its
    choice word and 256 times its own number."""
    return free(numbered("s", 8), numbered("r", 4),
                [setting(number) for number in range(count)])


def steps_of(letters):
    """Choice words that differ from step to step."""
    for place, letter in enumerate(letters):
        number, word = LETTERS.index(letter), (37 * place + 11) % 256
        yield number, word, word + 256 * number


@cache
def trace(letters, count=None):
    """Text and sheet. The model has so many commands, or else as many as the
    letters need."""
    count = count or max(map(LETTERS.index, letters), default=0) + 1
    text = lettered(count)
    return text, trace_sheet(table_of(text), 4095, tuple(steps_of(letters)))


@cache
def long_trace(letters):
    """The same for two commands that do little, so that many steps are soon
    walked."""
    text = free("s", "", ["s := *"] * 2)
    return text, trace_sheet(table_of(text), 1, tuple(
        (LETTERS.index(letter), place % 3 % 2, place % 3 % 2)
        for place, letter in enumerate(letters)))
