"""What the functions for the steps of a trace answer, in words, and what is
left then in the list and the counts that they were lent.

A Listed is due to each of them, or what the test says. A place of the list
holds what a step has: a command, a choice word and a state.
"""

from evidence.bursts import MOST_COMMANDS, WIDEST, burst, counts
from evidence.calls import TOO_SHORT, refused
from reader.model import Refusal

UNKNOWN_COMMAND = Refusal(10, 0)
WIDTH_OUT_OF_RANGE = Refusal(16, 0)


def steps_leaves(due, places):
    said = call_refused(due, places)
    if said is not None:
        return said, places[:]
    return steps_said(due), filled(due, places)


def burst_leaves(due, places, command, width):
    said = call_refused(due, places) or burst_refused(due, command, width)
    if said is not None:
        return said, places[:]
    most, place = burst(due.steps, command, width)
    return f"burst {most} {place}", filled(due, places)


def counts_leaves(due, places, entries):
    said = call_refused(due, places)
    if said is None and len(entries) < MOST_COMMANDS:
        said = refused(TOO_SHORT)
    if said is not None:
        return said, places[:], entries[:]
    return (steps_said(due), filled(due, places),
            [*counts(due.steps), *entries[MOST_COMMANDS:]])


LEAVES = {"steps": steps_leaves, "burst": burst_leaves,
          "counts": counts_leaves}


def call_refused(due, places):
    """What is said instead by any of the functions, or None."""
    if isinstance(due, str):
        return due
    return refused(TOO_SHORT) if len(places) < len(due.steps) else None


def burst_refused(due, command, width):
    if command >= due.commands:
        return refused(UNKNOWN_COMMAND)
    if not 1 <= width <= WIDEST:
        return refused(WIDTH_OUT_OF_RANGE)
    return None


def steps_said(due):
    return f"steps {len(due.steps)}"


def filled(due, places):
    """What stands behind the steps stays."""
    return [*due.steps, *places[len(due.steps):]]
