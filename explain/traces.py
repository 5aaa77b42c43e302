"""The lines of a report: a refusal, void alone, how many states are reached
where the model is safe, or a run by its states."""

from dataclasses import dataclass


class Unreadable(Exception):
    """What the report program wrote is no report of this text."""


@dataclass(frozen=True)
class Refused:
    number: int
    place: int


@dataclass(frozen=True)
class Setting:
    """How many states have the shared names set like this."""

    number: int
    states: int


@dataclass(frozen=True)
class Safe:
    counts: tuple
    settings: tuple

    @property
    def total(self):
        return sum(setting.states for setting in self.settings)


@dataclass(frozen=True)
class Void:
    counts: tuple


@dataclass(frozen=True)
class Step:
    command: str
    word: int
    after: int


@dataclass(frozen=True)
class Unsafe:
    counts: tuple
    start: int
    steps: tuple

    @property
    def states(self):
        return [self.start] + [step.after for step in self.steps]


def report_of(said):
    """What a report says, in its bytes."""
    try:
        *lines, rest = said.decode().split("\n")
        if rest:
            raise Unreadable
        return report_in([line.split(" ") for line in lines])
    except (ValueError, IndexError, TypeError) as fault:
        raise Unreadable from fault


def report_in(lines):
    if lines[0][0] == "refused":
        return Refused(*numbers(lines[0]))
    counts = tuple(numbers(lines[0]))
    if lines[1] == ["safe"]:
        return Safe(counts, settings_in(lines[2:]))
    if lines[1:] == [["void"]]:
        return Void(counts)
    steps = tuple(Step(name, int(word), int(after))
                  for _, _, name, word, after in lines[3:])
    if numbers(lines[1]) != [len(steps)]:
        raise Unreadable
    return Unsafe(counts, numbers(lines[2])[0], steps)


def settings_in(lines):
    """The settings that lines tell, which have to be just the lines that
    these settings have, in ascending order and each with a state."""
    settings = tuple(Setting(*numbers(line)) for line in lines[1:])
    order = [setting.number for setting in settings]
    states = [setting.states for setting in settings]
    told = [["states", str(sum(states))]]
    told += [["at", str(number), str(count)]
             for number, count in zip(order, states)]
    if (lines != told or order != sorted(set(order)) or order[0] < 0
            or min(states) < 1):
        raise Unreadable
    return settings


def numbers(line):
    return [int(word) for word in line[1:]]
