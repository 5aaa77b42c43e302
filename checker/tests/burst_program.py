"""Steps, bursts and counts as a program has to do them, which knows at a call
only what it is handed: a text, a sheet, lists and numbers. It is called as a
library is. Any part of it may be exchanged for a wrong part.

Stretches are not counted one by one: how often a command occurs in a stretch
is told from how often it occurs up to each place."""

from itertools import accumulate

from comparing.told import steps_told
from tests.portion_program import number_of, table_of, tested


class Bursts:
    """The right one."""

    listed, found = b"nb"
    eight, ten, sixteen = 8, 10, 16
    widest = 4095
    counted = 16

    def steps(self, text, sheet, places):
        return steps_told(self.list_steps(text, sheet, places))

    def burst(self, text, sheet, places, command, width):
        return steps_told(self.find_burst(text, sheet, places, command,
                                          width))

    def counts(self, text, sheet, places, entries):
        return steps_told(self.count_steps(text, sheet, places, entries))

    # The functions for C.

    def list_steps(self, text, sheet, places):
        said = self.refusal(text, sheet, places)
        if said:
            return said
        self.fill(sheet, places)
        return self.number_of_steps(sheet)

    def find_burst(self, text, sheet, places, command, width):
        said = self.burst_refusal(text, sheet, places, command, width)
        if said:
            return said
        self.fill(sheet, places)
        most, place = self.densest(self.commands_in(text, sheet, places),
                                   command, width)
        return self.told(most, place)

    def count_steps(self, text, sheet, places, entries):
        said = self.counts_refusal(text, sheet, places, entries)
        if said:
            return said
        self.fill(sheet, places)
        self.count(self.commands_in(text, sheet, places), entries,
                   table_of(text).commands)
        return self.number_of_steps(sheet)

    # Answers.

    def number_of_steps(self, sheet):
        return self.listed + 256 * self.last(sheet)

    def told(self, most, place):
        return self.found + 256 * (most + 65536 * place)

    # The sheet.

    def last(self, sheet):
        """How many steps it has."""
        return (len(sheet) - 17) // 10

    def step_at(self, sheet, number):
        """Its four bytes stand at the end of its record."""
        command, word, low, high = sheet[23 + 10 * number:27 + 10 * number]
        return command, word, low + 256 * high

    def fill(self, sheet, places):
        for number in range(self.last(sheet)):
            places[number] = self.step_at(sheet, number)

    def commands_in(self, text, sheet, places):
        """Those of the steps, once the list is filled."""
        return [place[0] for place in places[:self.last(sheet)]]

    # Bursts.

    def densest(self, commands, command, width):
        best = None
        for times, first in self.times(commands, command, width):
            if best is None or self.is_better(times, best[0]):
                best = times, first
        return best[0], self.place(best[1], commands, command, width)

    def times(self, commands, command, width):
        """How often it occurs in each stretch, and where the stretch begins,
        from 0 on."""
        upto = [0, *accumulate(self.is_called(one, command)
                               for one in commands)]
        for first, end in self.stretches(len(commands), width):
            yield upto[end] - upto[first], first

    def is_called(self, one, command):
        return one == command

    def stretches(self, count, width):
        width = min(width, count)
        for first in range(count - width + 1):
            yield first, first + width

    def is_better(self, times, most):
        return times > most

    def place(self, first, commands, command, width):
        return first + 1

    # Counts.

    def count(self, commands, entries, known):
        entries[:self.counted] = [0] * self.counted
        for one in commands:
            entries[one] += 1

    # Refusals, as a number or 0.

    def refusal(self, text, sheet, places):
        return self.outcome(text, sheet) or self.too_few(sheet, places)

    def burst_refusal(self, text, sheet, places, command, width):
        return (self.refusal(text, sheet, places)
                or self.unknown(text, sheet, command)
                or self.no_width(sheet, width))

    def counts_refusal(self, text, sheet, places, entries):
        return (self.refusal(text, sheet, places)
                or self.too_few_entries(text, entries))

    def outcome(self, text, sheet):
        said = tested(text, sheet)
        return 0 if said == "trace holds" else number_of(said)

    def too_few(self, sheet, places):
        return self.eight if len(places) < self.last(sheet) else 0

    def too_few_entries(self, text, entries):
        return self.eight if len(entries) < self.counted else 0

    def unknown(self, text, sheet, command):
        return self.ten if command >= table_of(text).commands else 0

    def no_width(self, sheet, width):
        return 0 if 1 <= width <= self.widest else self.sixteen
