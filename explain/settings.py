"""The states that runs of a safe model reach, for a person: at each setting
which shared names are set, how many states there are, which share of all that
is, and how long its bar is."""

from dataclasses import dataclass

from runs import bits
from traces import Unreadable


@dataclass(frozen=True)
class Line:
    number: int
    names: str
    states: int
    share: str
    bar: int


def setting_lines(report, model, longest):
    """The bars are so long that the longest of them has this length."""
    for setting in report.settings:
        if (setting.number >= 1 << len(model.shared)
                or setting.states > 1 << len(model.row)):
            raise Unreadable
    most = max(setting.states for setting in report.settings)
    return [Line(setting.number, in_words(setting.number, model),
                 setting.states, share(setting.states, report.total),
                 bar(setting.states, most, longest))
            for setting in report.settings]


def in_words(number, model):
    """The shared names as they are declared, those that are not set with a
    `not`."""
    return ", ".join(name if bit else f"not {name}"
                     for name, bit in zip(model.shared, bits(number, model)))


def share(count, total):
    """In percent, to the nearest tenth. What there is, is never said to be
    nothing, nor a part to be all."""
    if count == total:
        return "100%"
    tenths = nearest(1000 * count, total)
    if tenths == 0:
        return "<0.1%"
    if tenths == 1000:
        return ">99.9%"
    return f"{tenths // 10}.{tenths % 10}%"


def bar(count, most, longest):
    """What there is can be seen, however little it is."""
    return max(1, nearest(longest * count, most))


def nearest(number, divisor):
    """The whole number nearest to a quotient; of two, the larger."""
    return (2 * number + divisor) // (2 * divisor)
