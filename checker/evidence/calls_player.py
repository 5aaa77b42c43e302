"""What the functions of a player answer, in words, and what is left then in
the record that they were lent."""

from evidence.calls import TOO_SHORT, refused
from evidence.player import MOVES, Record, is_foreign, standing

OPENING = "player"
CALLS = OPENING, *MOVES

# Answers of a player itself; all others are the test's, or a refusal.
OPENED, MOVED, AT_AN_END, FOREIGN = "opened", "moved", "end", "foreign"


def player_leaves(due, call, memory, count):
    """After a call that is lent the first entries of a memory, so many. The
    states of a trace that passes are due, or what the test says."""
    if isinstance(due, str):
        return due, memory[:]
    if count < len(Record._fields):
        return refused(TOO_SHORT), memory[:]
    if call == OPENING:
        return OPENED, with_record(standing(due, 0), memory)
    record = record_in(memory)
    if is_foreign(due, record):
        return FOREIGN, memory[:]
    moved = MOVES[call](due, record)
    if moved is None:
        return AT_AN_END, memory[:]
    return MOVED, with_record(moved, memory)


def record_in(memory):
    return Record(*memory[:len(Record._fields)])


def with_record(record, memory):
    """What stands behind it stays."""
    return [*record, *memory[len(record):]]
