"""What is told at each place, against the reports of stored texts."""

import unittest

from player import Position
from test_sheets import unsafe_cases
from texts import model_of
from traces import Unreadable
from views import BREAKS, KEEPS, Trace


def traces():
    for text, sheet, report in unsafe_cases():
        yield Trace("FILE", text, sheet), report, model_of(text)


def passing_by():
    """A trace that breaks the property at place 1 and again at its end."""
    text = (b"shared a. row. start not a each 1. keep not a each 1. "
            b"command turn if 1 do a := not a else skip.")
    begin = bytes([3, 0, 0, 0, 1, 0, 1, 0, 1, 2, 0, 0, 0, 3, 0, 0, 0])
    steps = [bytes([4, 0, 0, 0, 4, 0, 0, 0, after, 0]) for after in (1, 0, 1)]
    return Trace("FILE", text, begin + b"".join(steps))


class Views(unittest.TestCase):
    def test_every_place(self):
        for trace, report, model in traces():
            states = report.states
            for place, state in enumerate(states):
                view = trace.view(Position(place, state))
                self.assertEqual(view.place, f"place {place} of "
                                             f"{len(report.steps)}")
                before = states[max(0, place - 1)]
                cells = [cell for _, part in view.values for cell in part]
                self.assertEqual(len(cells), len(model.names))
                for j, (name, cell) in enumerate(zip(model.names, cells)):
                    was, now = before >> j & 1, state >> j & 1
                    self.assertEqual(cell, f"{name}={now}" if was == now
                                     else f"{name}={was}>{now}")
                last = place == len(report.steps)
                self.assertEqual(view.judged, BREAKS if last else KEEPS)
                self.assertEqual(bool(view.parts), last)

    def test_steps(self):
        for trace, report, model in traces():
            start = trace.view(Position(0, report.start))
            self.assertEqual((start.step, start.stars), ("start", ()))
            commands = {command.name: command for command in model.commands}
            for number, step in enumerate(report.steps, 1):
                view = trace.view(Position(number, step.after))
                said, *choices = view.step.split(" *")
                self.assertEqual(said, f"step {number}: {step.command}")
                self.assertEqual(choices, [
                    f"{j + 1}={step.word >> j & 1}"
                    for j in range(len(commands[step.command].stars))])
                self.assertEqual([line.split()[:2] for line in view.stars],
                                 [[step.command, f"*{star.number}"]
                                  for star in commands[step.command].stars])

    def test_kinds(self):
        kinds = {tuple(kind for kind, _ in trace.view(Position(
            0, report.start)).values) for trace, report, _ in traces()}
        self.assertIn(("shared", "row"), kinds)
        self.assertIn(("shared",), kinds)

    def test_other_positions(self):
        for trace, report, model in traces():
            last = len(report.steps)
            for place, state in ((last + 1, report.states[-1]),
                                 (last, report.states[-1] ^ 1),
                                 (0, report.start + (1 << len(model.names))),
                                 (0, report.start ^ 1)):
                self.assertRaises(Unreadable, trace.view,
                                  Position(place, state))

    def test_broken_before_the_end(self):
        trace = passing_by()
        self.assertEqual([trace.view(Position(place, place % 2)).judged
                          for place in range(4)],
                         [KEEPS, BREAKS, KEEPS, BREAKS])

    def test_a_run_that_breaks_nothing(self):
        for text, sheet, report in unsafe_cases():
            if report.steps:
                self.assertRaises(Unreadable, Trace, "FILE", text, sheet[:-10])


if __name__ == "__main__":
    unittest.main()
