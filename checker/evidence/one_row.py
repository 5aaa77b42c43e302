"""The table of one row in numbers: a state is a number with a bit for each
name, shared names lowest, and a choice word has a bit for each star."""

from reader.model import (Assignment, Chain, Constant, For, Not, Row, Shared,
                          Star)


class OneRow:
    def __init__(self, model):
        self.model = model
        self.shared = len(model.shared)
        self.names = self.shared + len(model.row)
        self.states = 1 << self.names
        self.commands = len(model.commands)

    def words(self, command):
        return 1 << self.model.commands[command].stars

    def bit_of(self, name):
        return name.index + (self.shared if isinstance(name, Row) else 0)

    def value(self, tree, state, word):
        if isinstance(tree, Constant):
            return tree.value == 1
        if isinstance(tree, Star):
            return word >> tree.index & 1 == 1
        if isinstance(tree, (Shared, Row)):
            return state >> self.bit_of(tree) & 1 == 1
        if isinstance(tree, Not):
            return not self.value(tree.operand, state, word)
        assert isinstance(tree, Chain)
        values = (self.value(part, state, word) for part in tree.parts)
        return all(values) if tree.operator == "and" else any(values)

    def after(self, items, state, word):
        for item in items:
            if isinstance(item, Assignment):
                mask = 1 << self.bit_of(item.target)
                state = (state | mask if self.value(item.value, state, word)
                         else state & ~mask)
            elif isinstance(item, For):
                taken = (item.yes if self.value(item.condition, state, word)
                         else item.no)
                state = self.after(taken, state, word)
        return state

    def step(self, state, command, word):
        command = self.model.commands[command]
        taken = (command.yes if self.value(command.test, state, word)
                 else command.no)
        return self.after(taken, state, word)

    def holds(self, clause, state):
        return (self.value(clause.shared, state, 0)
                and self.value(clause.row, state, 0))

    def starts(self, state):
        return self.holds(self.model.start, state)

    def can_start(self):
        return any(map(self.starts, range(self.states)))

    def breaks(self, state):
        return not self.holds(self.model.keep, state)

    def steps_from(self, state):
        """Command, word and state after, in the order of runs."""
        for command in range(self.commands):
            for word in range(self.words(command)):
                yield command, word, self.step(state, command, word)
