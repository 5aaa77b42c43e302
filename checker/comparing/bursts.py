"""Compares what the functions for the steps of a trace answer, and what they
leave in what they are lent, with what is due."""

from comparing.lending import beside, counts_unlike, places_unlike
from evidence.bursts import MOST_COMMANDS, Listed, counts
from evidence.calls_bursts import LEAVES


def compare_call(rng, library, title, text, sheet, due, call, numbers,
                 differences):
    """A call that is lent so many places, and so many counts or a command and
    a width. A Listed is due, or what the test says. Returned is what the call
    was to answer and leave."""
    lent, asked = handed(rng, due, call, *numbers)
    expected, *left = LEAVES[call](due, *lent, *asked)
    said = getattr(library, call)(text, sheet, *lent, *asked)
    differences.met[f"{call}: {kind_of(due, expected)}"] += 1
    differences.note(f"{call} of {numbers}: {title}",
                     beside(expected, left, lent), beside(said, lent, left))
    return expected, *left


def kind_of(due, said):
    """The answer's first word, and of a refusal that the sheet does not cause
    the number."""
    if isinstance(due, Listed) and said.startswith("refused"):
        return " ".join(said.split()[:2])
    return said.split()[0]


def handed(rng, due, call, count, *numbers):
    """What is lent, and the numbers that a call is handed beside it. Nothing
    that is lent is as the call is to leave it."""
    steps = due.steps if isinstance(due, Listed) else ()
    if call == "burst":
        command, _ = numbers
        return [places_unlike(rng, steps, count, command % 256)], numbers
    lent = [places_unlike(rng, steps, count, rng.randrange(MOST_COMMANDS))]
    if call == "counts":
        lent.append(counts_unlike(rng, counts(steps), *numbers))
    return lent, ()
