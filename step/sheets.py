"""The run that a trace says, from the bytes of its sheet. That they are a
trace for this text is known before."""

import struct

from traces import Step, Unreadable, Unsafe

LONGEST_SHEET = 65536
# What stands behind the length and the kind of each record: the model's
# counts and the start state, then a step's command, word and state after it.
BEGINNING = struct.Struct("<6x3B6xH")
STEP = struct.Struct("<6x2BH")


def run_in(sheet, model):
    try:
        *counts, start = BEGINNING.unpack_from(sheet)
        steps = tuple(
            Step(model.commands[command].name, word, after)
            for command, word, after in STEP.iter_unpack(
                sheet[BEGINNING.size:]))
    except (struct.error, IndexError) as fault:
        raise Unreadable from fault
    if tuple(counts) != model.counts:
        raise Unreadable
    return Unsafe(tuple(counts), start, steps)
