"""What a person wants to see of a text that says a model: its names, the
parts of `start` and `keep`, and the commands with their stars. Every name is
spelt as it is declared, however the text spells it where it is used."""

from dataclasses import dataclass, replace

from notation import commands_in, declarations, in_roles, walk
from tokens import NAME, cut, quoted

# What ends a test or an assignment.
ENDS = ("do", ";", "else", "end", ".")


@dataclass(frozen=True)
class Star:
    """A star with the test or assignment that it stands in."""

    place: int
    number: int
    within: str


@dataclass(frozen=True)
class Command:
    name: str
    place: int
    end: int
    stars: tuple


@dataclass(frozen=True)
class Clause:
    """The tokens of `start` or `keep`, of its shared part and of its `each`
    part."""

    whole: tuple
    shared: tuple
    row: tuple


@dataclass(frozen=True)
class Model:
    shared: tuple
    row: tuple
    start: Clause
    keep: Clause
    commands: tuple

    @property
    def names(self):
        return self.shared + self.row

    @property
    def counts(self):
        return len(self.shared), len(self.row), len(self.commands)


def model_of(text):
    parts = as_declared(walk(cut(text))[0])
    return Model(names_in(parts, "shared name"), names_in(parts, "row name"),
                 clause_of(parts, "start"), clause_of(parts, "keep"),
                 tuple(map(command_of, commands_in(parts))))


def as_declared(parts):
    """The parts, each name in the spelling of its declaration. No name gets
    longer or shorter, so every token ends where it did."""
    declared = declarations(parts)
    return [respelt(part, declared[part.token.folded].token.word)
            if part.kind == NAME else part for part in parts]


def respelt(part, word):
    return replace(part, token=replace(part.token, word=word))


def names_in(parts, role):
    return tuple(part.token.word for part in in_roles(parts, role))


def clause_of(parts, word):
    tokens = [part.token for part in parts]
    kinds = [part.kind for part in parts]
    first = kinds.index(word)
    middle = kinds.index("each", first)
    last = kinds.index(".", middle)
    return Clause(tuple(tokens[first:last + 1]),
                  tuple(tokens[first + 1:middle]),
                  tuple(tokens[middle + 1:last]))


def command_of(parts):
    stars = [part.token.place for part in parts if part.kind == "*"]
    numbers = {place: number for number, place in enumerate(stars, 1)}
    return Command(
        names_in(parts, "title")[0],
        parts[0].token.place, parts[-1].token.end,
        tuple(Star(token.place, numbers[token.place],
                   quoted(piece, {place: str(number)
                                  for place, number in numbers.items()}))
              for piece in pieces(parts) for token in piece
              if token.place in numbers))


def pieces(parts):
    """The tests and assignments of a command, each as its tokens."""
    found = []
    for part in parts:
        if part.kind == "if" or part.role in ("item", "row item"):
            found.append([])
        if found and part.kind not in ENDS:
            found[-1].append(part.token)
    return found
