"""Labels of a player's walks: how they are written, and what they say.

A label ends in an arrow and then says, parted by semicolons, which function
is called and what it answers. Behind `opened` and `moved` stand the place and
the state that the record has then; after any other answer the record is as it
was. With 1-5 and 9-13 for place and state there are five calls, which come to
1 and 9, 2 and 10 and so on; 5-1 goes down. `moves` are the three moves one
after the other, and `all` these and the opening.
"""

from typing import NamedTuple, Optional

from evidence.calls_player import CALLS, MOVED, OPENED
from evidence.player import MOVES, Record

SEVERAL = {"moves": tuple(MOVES), "all": CALLS}


class Step(NamedTuple):
    """A call, the answer, and the record then where it is another one."""

    call: str
    said: str
    record: Optional[Record]


def walk(detail, text, sheet, given, *said):
    """A corpus entry with its label. The entries given are lent as they
    stand, whether or not they are a record."""
    label = f"{detail} -> {'; '.join(said)}"
    return (label, text, sheet, given,
            tuple(step.call for step in meant_by(label)))


def meant_by(label):
    """The Steps that a label says."""
    _, _, meant = label.rpartition(" -> ")
    return [step for part in meant.split("; ") for step in steps_in(part)]


def steps_in(part):
    call, said = part.split(" ", 1)
    answer, *numbers = said.split(" ")
    if answer not in (OPENED, MOVED):
        return [Step(each, said, None) for each in SEVERAL.get(call, (call,))]
    places, states = map(span, numbers)
    return [Step(call, answer, Record(*record))
            for record in zip(places, states, strict=True)]


def span(word):
    first, _, last = word.partition("-")
    first, last = int(first), int(last or first)
    return range(first, last + 1) if first <= last else range(first, last - 1,
                                                              -1)
