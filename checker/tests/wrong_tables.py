"""Tables of one row that leave steps out or look for a start state in a wrong
way: wrong for the search and for the test alike."""

from evidence.one_row import OneRow


class WordsBelow64(OneRow):
    def steps_from(self, state):
        return (step for step in super().steps_from(state) if step[1] < 64)


class FifteenCommands(OneRow):
    def steps_from(self, state):
        return (step for step in super().steps_from(state) if step[0] < 15)


class PartsOfStartApart(OneRow):
    """Is content where each part of `start` holds in a state of its own."""

    def can_start(self):
        clause = self.model.start
        return all(any(self.value(part, state, 0)
                       for state in range(self.states))
                   for part in (clause.shared, clause.row))


class FirstStateAlone(OneRow):
    def can_start(self):
        return self.starts(0)


class AllButLastState(OneRow):
    def can_start(self):
        return any(map(self.starts, range(self.states - 1)))
