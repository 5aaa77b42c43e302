"""Compares what a player's functions answer and leave, call by call, with
what is due."""

from comparing.lending import memory
from comparing.reservations import kind_of
from evidence.calls import TOO_SHORT, refused
from evidence.calls_player import (AT_AN_END, FOREIGN, MOVED, OPENED,
                                   with_record)
from evidence.player import Record

# Entries behind those that a walk is lent, to see that they stay.
BEHIND = 4
SHORT = range(len(Record._fields))


def compare_call(library, title, text, sheet, call, held, count, expected,
                 differences):
    """A call that is lent the first entries of a memory, so many. An answer
    is due, with what it leaves of the memory."""
    lent = held[:]
    said = library.play(call, text, sheet, lent, count)
    differences.met[f"{call}: {kind_of(expected[0])}"] += 1
    differences.note(f"{call}, {count} entries of {held}: {title}", expected,
                     (said, lent))


def compare_walk(rng, library, title, text, sheet, given, steps, differences):
    """A walk by these steps, in which each call is also lent fewer entries
    than a record has, and more. It is not followed beyond a call that
    differs."""
    before = differences.count
    held = [*given, *memory(rng, BEHIND)]
    counts = [len(given)]
    if len(given) not in SHORT:
        counts += [*SHORT, rng.randint(len(given) + 1, len(held))]
    for step in steps:
        for count in counts:
            compare_call(library, title, text, sheet, step.call, held, count,
                         due_of(step, held, count), differences)
        if differences.count > before:
            return
        _, held = due_of(step, held, len(given))


def due_of(step, held, count):
    """The answer where so many entries are lent, and what it leaves. The step
    says what is due to a record."""
    if count in SHORT and step.said in (OPENED, MOVED, AT_AN_END, FOREIGN):
        return refused(TOO_SHORT), held
    if step.record is None:
        return step.said, held
    return step.said, with_record(step.record, held)
