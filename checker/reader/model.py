"""What a text says: names, clauses and commands, with expressions as trees.

A run of equal operators is one Chain, so a tree is never much higher than the
depth that the notation allows, and walking it needs no deep recursion.
"""

from dataclasses import dataclass
from typing import Union


@dataclass(frozen=True)
class Refusal:
    number: int
    place: int


@dataclass(frozen=True)
class Name:
    word: str
    place: int
    length: int


@dataclass(frozen=True)
class Constant:
    value: int


@dataclass(frozen=True)
class Shared:
    index: int


@dataclass(frozen=True)
class Row:
    index: int


@dataclass(frozen=True)
class Star:
    """A free choice, numbered within its command in text order."""

    index: int


@dataclass(frozen=True)
class Not:
    operand: "Expression"


@dataclass(frozen=True)
class Chain:
    """Two or more parts joined by one operator, grouped to the left.

    The first part is never a chain of the same operator: that grouping is
    what the longer chain says already.
    """

    operator: str
    parts: tuple


Expression = Union[Constant, Shared, Row, Star, Not, Chain]


@dataclass(frozen=True)
class Skip:
    pass


@dataclass(frozen=True)
class Assignment:
    target: Union[Shared, Row]
    value: Expression


@dataclass(frozen=True)
class For:
    condition: Expression
    yes: tuple
    no: tuple


@dataclass(frozen=True)
class Clause:
    """`start` or `keep`: a part for the table and a part for every row."""

    shared: Expression
    row: Expression


@dataclass(frozen=True)
class Command:
    name: Name
    test: Expression
    yes: tuple
    no: tuple
    stars: int


@dataclass(frozen=True)
class Model:
    shared: tuple
    row: tuple
    start: Clause
    keep: Clause
    commands: tuple
