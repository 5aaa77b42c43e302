"""Models made from a graph: numbered states, and steps that name a command,
a choice word and the state after.

A state is kept in row names. A command first takes down its stars, then goes
through its steps until one fits, and clears what it took down. Where none
fits, nothing changes.
"""

from corpora.pairs_models import exactly
from inputs.phrases import command, loop, model

BITS = ("x", "y", "z", "t")
TAKEN = ("u", "v")
DONE = "d"


def letters(number):
    return "abcefghi"[number]


def any_of(parts):
    return " or ".join(parts) or "0"


def one_step(bits, taken, state, word, after):
    now = exactly(bits + taken, state + (word << len(bits)))
    writes = [f"{name} := {after >> j & 1}" for j, name in enumerate(bits)
              if (after ^ state) >> j & 1]
    return loop(f"not {DONE} and {now}", "; ".join(writes + [f"{DONE} := 1"]))


def graph(bits, stars, starts, breaks, commands):
    """So many bits and stars; `commands` has a dictionary for each, from a
    state and a word to the state after."""
    bits, taken = BITS[:bits], TAKEN[:stars]
    idle = [f"not {name}" for name in taken + (DONE,)]
    first = any_of(exactly(bits, state) for state in starts)
    broken = any_of(exactly(bits, state) for state in breaks)
    said = []
    for number, steps in enumerate(commands):
        before = [loop(yes="; ".join(f"{name} := *" for name in taken))
                  ] if taken else []
        inside = [one_step(bits, taken, state, word, after)
                  for (state, word), after in sorted(steps.items())]
        after = [loop(yes="; ".join(f"{name} := 0"
                                    for name in taken + (DONE,)))]
        said.append(command(letters(number),
                            yes="; ".join(before + inside + after)))
    return model("", " ".join(bits + taken + (DONE,)),
                 ("1", " and ".join([f"({first})"] + idle)),
                 ("1", f"not ({broken})"), said)
