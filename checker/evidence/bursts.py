"""Bursts in a trace that passes: the most times that a command occurs in so
many consecutive steps. Each stretch is counted anew, whatever is known of the
one before it."""

from typing import NamedTuple

from evidence.traces import for_text, passing_in

WIDEST = 4095
MOST_COMMANDS = 16


class Listed(NamedTuple):
    """How many commands the model has; and of each step of a trace its
    command, its choice word and the state after it."""

    commands: int
    steps: tuple


def listed(text, sheet):
    """A Listed, or what the test says of any other sheet."""
    return for_text(listed_in, text, sheet)


def listed_in(table, sheet):
    """The same for the table of a text's model."""
    trace = passing_in(table, sheet)
    return trace if isinstance(trace, str) else Listed(table.commands,
                                                       trace.steps)


def called(steps):
    """The commands alone, a byte for each step."""
    return bytes(command for command, _, _ in steps)


def burst(steps, command, width):
    """The most times, and the first place where a stretch begins that has so
    many. Places count from 1. All stretches are as long as the width; of a
    trace that is shorter the whole is the only one."""
    commands = called(steps)
    last = max(len(commands) - width, 0)
    times = [commands.count(command, first, first + width)
             for first in range(last + 1)]
    most = max(times)
    return most, times.index(most) + 1


def counts(steps):
    """How often each command occurs, also those that no model of fewer
    commands has."""
    return [called(steps).count(command) for command in range(MOST_COMMANDS)]
