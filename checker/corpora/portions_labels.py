"""Labels of searches in portions: how they are written, and what they say.

A label ends in an arrow and then says, parted by semicolons, the states met,
in that order, what is answered to opening, to each portion and to finishing;
or the text's refusal. Of the states met, 5 is a start state, 5<1 one that
state 1 led to; 2-5 are start states from 2 to 5, and 2-5< those to each of
which the state before it led.
"""

from typing import NamedTuple

from evidence.calls_portions import position_said
from evidence.portions import Pause
from reader.model import Refusal

ALL = (1 << 64) - 1


class Walk(NamedTuple):
    """The pauses after opening and after each portion, and the answer at the
    end."""

    pauses: list
    finish: str


def walk(detail, text, portions, states, *said):
    """A corpus entry with its label."""
    by = " ".join(map(str, portions)) or "no portion"
    return (f"{detail}, by {by} -> {'; '.join((states,) + said)}", text,
            portions)


def walks(detail, text, ways, states, positions, finish):
    """An entry for each way to divide the work. The positions are those after
    no state, one state, two and so on; the last is the end."""
    for portions in ways:
        totals = [sum(portions[:count]) for count in range(len(portions) + 1)]
        yield walk(detail, text, portions, states,
                   *(positions[min(total, len(positions) - 1)]
                     for total in totals), finish)


def ways_of(count):
    """Ways to divide so many states: nothing before the end, one by one and
    more after the end, portions of 0 between, the first or the last by
    itself, all at once, more than there are."""
    ones = (1,) * count
    return ((), (0,), (1,), ones + (0, 1, ALL), (0,) + (1, 0) * count,
            (1, count - 1), (count - 1, 1), (count, 1), (count + 1,),
            (0, ALL, ALL))


def meant_by(label):
    """The Walk or the Refusal that a label says."""
    _, _, meant = label.rpartition(" -> ")
    if meant.startswith("refused "):
        return Refusal(*map(int, meant.split(" ")[1:]))
    states, *positions, finish = meant.split("; ")
    met = list(states_meant(states).items())
    return Walk([pause_meant(met, said) for said in positions], finish)


def states_meant(said):
    """Each state met, with the state that led to it."""
    met = {}
    for word in said.split(" ") if said != "none" else ():
        states, led, by = word.partition("<")
        first, _, last = states.partition("-")
        for state in range(int(first), int(last or first) + 1):
            met[state] = int(by or state - 1) if led else state
    return met


def pause_meant(met, said):
    _, expanded, count, trials, *broken = said.split(" ")
    pause = Pause(dict(met[:int(count)]), int(expanded), int(trials),
                  bool(broken))
    assert position_said(pause) == said, said
    return pause
