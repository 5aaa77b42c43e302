"""A breaking run for a person: each step with its choices and every name's
value before and after it, and what a state breaks."""

from dataclasses import dataclass

from tokens import quoted
from traces import Unreadable
from values import used, value

# No command has this name, because it is reserved.
START = "start"


@dataclass(frozen=True)
class Line:
    """One step, or the start, where the values before are those after."""

    number: int
    command: str
    choices: str
    before: tuple
    after: tuple


@dataclass(frozen=True)
class Judged:
    """One part of `keep` with its value in a state."""

    part: str
    quote: str
    holds: bool
    values: dict


def bits(state, model):
    """Shared names are the lowest bits, as declared; row names follow."""
    return tuple(state >> j & 1 for j in range(len(model.names)))


def lines_of(report, model):
    commands = {command.name: command for command in model.commands}
    if not all(step.command in commands for step in report.steps):
        raise Unreadable
    states = [bits(state, model) for state in report.states]
    lines = [Line(0, START, "", states[0], states[0])]
    for number, step in enumerate(report.steps, 1):
        said = choices(commands[step.command], step.word)
        lines.append(Line(number, step.command, said,
                          states[number - 1], states[number]))
    return lines


def choices(command, word):
    """Star j, from 1 in text order, has bit j - 1 of the choice word."""
    return " ".join(f"*{star.number}={word >> star.number - 1 & 1}"
                    for star in command.stars)


def judged(state, model):
    """Both parts of `keep` in a state, which is given by its bits."""
    values = dict(zip(model.names, state))
    return [Judged(part, quoted(tokens), value(tokens, values) == 1,
                   used(tokens, values))
            for part, tokens in (("shared part", model.keep.shared),
                                 ("each part", model.keep.row))]
