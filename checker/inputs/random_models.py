"""Random models as lists of tokens, within all limits or beyond a chosen one.

A model is written in two passes. The first lays out names, commands and items
with a hole for each expression; the second fills the holes, so that nodes,
stars and depth can be steered to a limit or just beyond it.
"""

import string
from dataclasses import dataclass

from reader.tokens import RESERVED

WORD_BYTES = string.ascii_letters + string.digits + "_"
JOINTS = ("(", ")", "and", "or", "not")
LIMITS = {"shared": 8, "row": 10, "together": 12, "commands": 16, "items": 256,
          "nodes": 1024, "stars": 8, "depth": 16}


@dataclass
class Hole:
    """A place for an expression; command is None in start and keep."""

    row: bool
    command: object
    size: int = 1
    depth: int = 0


def fresh_word(rng, taken, longest):
    while True:
        length = rng.choice([1, 1, 2, 3, rng.randint(1, longest)])
        word = rng.choice(string.ascii_letters) + "".join(
            rng.choice(WORD_BYTES) for _ in range(min(length, longest) - 1))
        if taken and rng.random() < 0.2:
            # Near namesakes: names that begin or continue one another.
            word = (rng.choice(sorted(taken)) + word)[:longest]
        small = word.lower()
        if small not in RESERVED and all(small != other.lower()
                                         for other in taken):
            taken.add(word)
            return word


def shares(rng, total, count):
    """Splits the total into that many parts of at least one."""
    parts = [1] * count
    for _ in range(total - count):
        parts[rng.randrange(count)] += 1
    return parts


class Writer:
    """Writes the tokens of one model, `over` beyond the limit aimed at."""

    def __init__(self, rng, aim=None, over=0):
        self.rng = rng
        self.aim = aim
        self.goal = LIMITS[aim] + over if aim else None
        longest = 3 if aim in ("nodes", "items", "commands") else 16
        self.taken = set()
        shared, row = self.name_counts()
        self.shared = [fresh_word(rng, self.taken, longest)
                       for _ in range(shared)]
        self.row = [fresh_word(rng, self.taken, longest) for _ in range(row)]
        self.commands = [fresh_word(rng, self.taken, longest)
                         for _ in range(self.command_count())]
        self.holes = []

    def name_counts(self):
        rng = self.rng
        if self.aim == "shared":
            return self.goal, rng.randint(0, 12 - 8)
        if self.aim == "row":
            return rng.randint(0, 12 - 10), self.goal
        if self.aim == "together":
            shared = rng.randint(self.goal - 10, 8)
            return shared, self.goal - shared
        return rng.randint(0, 4), rng.randint(0, 4)

    def command_count(self):
        if self.aim == "commands":
            return self.goal
        return self.rng.choice([1, 1, 2, 3, self.rng.randint(1, 16)])

    def item_total(self, sides):
        if self.aim == "items":
            return self.goal
        most = 80 if self.aim is None and self.rng.random() < 0.1 else 8
        return sides + self.rng.randint(0, most)

    def hole(self, row, command=None):
        self.holes.append(Hole(row, command))
        return [self.holes[-1]]

    def items(self, count, command):
        """Items that count as many as asked, joined by semicolons."""
        rng = self.rng
        runs = []
        while count:
            if count >= 3 and rng.random() < 0.3:
                inner = rng.randint(2, min(count - 1, 12))
                yes = rng.randint(1, inner - 1)
                runs.append(["for"] + self.hole(True, command) + ["do"]
                            + self.row_items(yes, command) + ["else"]
                            + self.row_items(inner - yes, command) + ["end"])
                count -= 1 + inner
            else:
                runs.append(self.plain(self.shared, False, command))
                count -= 1
        return joined(runs)

    def row_items(self, count, command):
        return joined([self.plain(self.row, True, command)
                       for _ in range(count)])

    def plain(self, names, row, command):
        if not names or self.rng.random() < 0.3:
            return ["skip"]
        return [self.rng.choice(names), ":="] + self.hole(row, command)

    def tokens(self):
        laid = ["shared", *self.shared, ".", "row", *self.row, "."]
        for word in ("start", "keep"):
            laid += ([word] + self.hole(False) + ["each"] + self.hole(True)
                     + ["."])
        sides = 2 * len(self.commands)
        counts = shares(self.rng, self.item_total(sides), sides)
        for name in self.commands:
            laid += ["command", name, "if"] + self.hole(False, name) + ["do"]
            laid += self.items(counts.pop(), name) + ["else"]
            laid += self.items(counts.pop(), name) + ["."]
        self.size_holes()
        return self.fill(laid)

    def fill(self, laid):
        """Puts an expression in each hole, and the stars aimed at on top."""
        left = {name: LIMITS["stars"] for name in self.commands}
        starry = None
        if self.aim == "stars":
            starry = self.rng.choice(self.commands)
            left[starry] = 0
            self.rng.choice([hole for hole in self.holes
                             if hole.command == starry]).size = 4 * self.goal
        tokens, candidates = [], []
        for token in laid:
            if not isinstance(token, Hole):
                tokens.append(token)
                continue
            for piece in self.filled(token, left):
                if token.command == starry and piece not in JOINTS:
                    candidates.append(len(tokens))
                tokens.append(piece)
        if starry:
            for j in self.rng.sample(candidates, self.goal):
                tokens[j] = "*"
        return tokens

    def size_holes(self):
        rng = self.rng
        for hole in self.holes:
            hole.size = rng.choice([1, 1, 1, 2, 3, 4, 5, rng.randint(1, 12)])
            hole.depth = rng.choice([1, 2, 3, LIMITS["depth"]])
        if self.aim == "nodes":
            sizes = shares(rng, self.goal, len(self.holes))
            for hole, size in zip(self.holes, sizes):
                hole.size, hole.depth = size, LIMITS["depth"]
        elif self.aim is None:
            # Wide models must still keep to the limit of nodes.
            spare = 1000
            for hole in self.holes:
                hole.size = max(1, min(hole.size, spare))
                spare -= hole.size
        else:
            for hole in self.holes:
                hole.size = min(hole.size, 3)
        if self.aim == "depth":
            self.deep = rng.choice(self.holes)

    def filled(self, hole, stars):
        if self.aim == "depth" and hole is self.deep:
            return self.nest(hole, stars)
        return self.expression(hole, hole.size, hole.depth, stars)

    def nest(self, hole, stars):
        """Opens exactly the depth aimed at around one operand."""
        tokens, closing = [], 0
        for _ in range(self.goal):
            # An operand beside the path would end a `not` that stands above.
            if tokens[-1:] != ["not"] and self.rng.random() < 0.2:
                tokens += self.leaf(hole, stars) + [self.operator()]
            if self.rng.random() < 0.5:
                tokens.append("(")
                closing += 1
            else:
                tokens.append("not")
        return tokens + self.leaf(hole, stars) + [")"] * closing

    def operator(self):
        return self.rng.choice(["and", "or"])

    def leaf(self, hole, stars):
        rng = self.rng
        if stars.get(hole.command) and rng.random() < 0.2:
            stars[hole.command] -= 1
            return ["*"]
        names = self.shared + (self.row if hole.row else [])
        if names and rng.random() < 0.75:
            return [rng.choice(names)]
        return [rng.choice("01")]

    def expression(self, hole, size, depth, stars):
        """Exactly that many nodes; an even number needs some depth left."""
        rng = self.rng
        if size == 1 and (depth == 0 or rng.random() < 0.9):
            return self.leaf(hole, stars)
        ways = []
        if depth > 1 or (depth == 1 and size % 2):
            ways.append("parentheses")
        if size > 1 and (depth > 1 or (depth == 1 and size % 2 == 0)):
            ways.append("not")
        if size > 2:
            ways += ["join"] * 3
        way = rng.choice(ways)
        if way == "parentheses":
            inner = self.expression(hole, size, depth - 1, stars)
            return ["("] + inner + [")"]
        if way == "not":
            return ["not"] + self.expression(hole, size - 1, depth - 1, stars)
        left = rng.randint(1, size - 2)
        if depth == 0 and left % 2 == 0:
            left -= 1
        return (self.expression(hole, left, depth, stars) + [self.operator()]
                + self.expression(hole, size - 1 - left, depth, stars))


def joined(runs):
    tokens = list(runs[0])
    for run in runs[1:]:
        tokens += [";"] + run
    return tokens
