"""What a program says that the checker does not: shown, counted, closed."""

from collections import Counter

SHOWN = 5


class Differences:
    """Counts answers that differ and shows the first of them; `met` tells
    how often each kind of answer came up."""

    def __init__(self):
        self.count = 0
        self.met = Counter()

    def note(self, what, expected, got):
        if got == expected:
            return
        self.count += 1
        if self.count <= SHOWN:
            print(f"{what}\n  checker: {expected!r}\n  program: {got!r}")

    def close(self, looked_at):
        """Says how it went; the status of the program."""
        if self.met:
            print(", ".join(f"{name}: {self.met[name]}"
                            for name in sorted(self.met)))
        said = {0: "no difference", 1: "1 difference"}
        print(f"{looked_at}, {said.get(self.count, f'{self.count} differences')}")
        return 1 if self.count else 0
