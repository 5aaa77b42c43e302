"""What is told at each place of a trace."""

from dataclasses import dataclass

from plain import cell, kept, stars
from runs import START, judged, lines_of
from sheets import run_in
from texts import model_of
from traces import Unreadable

KEEPS = "This state keeps the property."
BREAKS = "This state breaks the property:"


@dataclass(frozen=True)
class View:
    """A place: the step that led there, its stars, the values after it, and
    how `keep` stands. Values are a word for their kind with `name=value`
    for each name; `parts` are there where the state breaks `keep`."""

    file: str
    place: str
    step: str
    stars: tuple
    values: tuple
    judged: str
    parts: tuple


class Trace:
    """A text with its passing trace."""

    def __init__(self, file, text, sheet):
        self.file, self.text, self.model = file, text, model_of(text)
        run = run_in(sheet, self.model)
        self.states, self.lines = run.states, lines_of(run, self.model)
        if self.keeps(self.lines[-1].after):
            raise Unreadable

    def keeps(self, state):
        return all(part.holds for part in judged(state, self.model))

    def view(self, position):
        """Of a position that is the sheet's own."""
        place = position.place
        if self.states[place:place + 1] != [position.state]:
            raise Unreadable
        line = self.lines[place]
        keeps = self.keeps(line.after)
        return View(
            self.file, f"place {place} of {len(self.lines) - 1}", said(line),
            tuple(stars(self.text, [line], self.model)), self.values(line),
            KEEPS if keeps else BREAKS,
            () if keeps else tuple(kept(line.after, self.model)))

    def values(self, line):
        cells = tuple(f"{name}={cell(before, after)}" for name, before, after
                      in zip(self.model.names, line.before, line.after))
        end = len(self.model.shared)
        kinds = ("shared", cells[:end]), ("row", cells[end:])
        return tuple((kind, part) for kind, part in kinds if part)


def said(line):
    """A step with its choices, or the start."""
    if line.command == START:
        return START
    return f"step {line.number}: {line.command} {line.choices}".rstrip()
