"""Expressions as deep, as tall and as wide as the notation allows."""

from corpora.values_places import PLACES, filled
from inputs.phrases import assigned, command, loop, model, nested

DEPTH = 16

# Opening, closing and the depth that each adds.
WAYS = (("(", ")", 1), ("not ", "", 1), ("not (", ")", 2), ("(not ", ")", 2),
        ("not not (", ")", 3), ("(not (", "))", 3))

# An operand that leaves the other one to decide.
NEUTRAL = {"and": "1", "or": "0"}


def with_values(values):
    """A text that assigns each of these to a row name."""
    return model(commands=[command(yes=loop("1", assigned("y", values)))])


def every_depth():
    """Each way to nest, at every depth that it can have."""
    for core, own in (("a", 0), ("a and b", 0), ("a or not b", 1)):
        text = with_values(nested(opening, closing, count, core)
                           for opening, closing, each in WAYS
                           for count in range((DEPTH - own) // each + 1))
        for state in range(4):
            yield f"around {core}, state {state}", text, state, 0


def at_every_place():
    """Sixteen deep, wherever an expression can stand."""
    for opening, closing, each in WAYS[:4]:
        for core in "01":
            said = [nested(opening, closing, DEPTH // each, core)] * 13
            yield f"{opening} around {core}", filled(*said), 0, 0
    for place, name in enumerate(PLACES):
        said = ["1"] * 13
        said[place] = nested("(0 or not ", ")", 8, "0")
        yield f"in {name} -> passes 37", filled(*said), 0, 0


def to_the_right(core, around):
    """a and (b or (c and ..)), told from the innermost outwards."""
    text = core
    for number, (operator, operand) in enumerate(around):
        text = f"{operand} {operator} " + (f"({text})" if number else text)
    return text


def to_the_left(core, around):
    text = core
    for number, (operator, operand) in enumerate(around):
        text = (f"({text})" if number else text) + f" {operator} {operand}"
    return text


def nested_operands():
    """As many operands as can be nested in one another: x is each of them in
    turn, and the others are such that it decides."""
    for nest in (to_the_right, to_the_left):
        for operators in (("and", "or"), ("or", "and")):
            around = [(operator, NEUTRAL[operator])
                      for operator in operators * DEPTH][:DEPTH + 1]
            said = [nest("x", around)]
            for here, (operator, _) in enumerate(around):
                others = list(around)
                others[here] = operator, "x"
                said.append(nest(NEUTRAL[operator], others))
            for state in (4, 11):
                yield (f"{nest.__name__}, {' '.join(operators)}, "
                       f"state {state} -> passes {6 + 18 * 35}",
                       with_values(said), state, 0)


def tall(core, around):
    """a or b and (c or d and (..)): two operands wait at every depth."""
    text = core
    for number, (first, second) in enumerate(around):
        text = f"{first} or {second} and " + (f"({text})" if number else text)
    return text


def tallest():
    """The most values that can wait for their operators: x is each of the
    operands in turn, and the others are such that it decides."""
    around = [("0", "1")] * (DEPTH + 1)
    said = [tall("x", around)]
    for here in range(DEPTH + 1):
        for core, pair in (("0", ("x", "1")), ("1", ("0", "x"))):
            said.append(tall(core, around[:here] + [pair]
                             + around[here + 1:]))
    for first in range(0, 35, 12):
        part = said[first:first + 12]
        for state in (4, 11):
            yield (f"operands from {first} on, state {state} "
                   f"-> passes {6 + 69 * len(part)}",
                   with_values(part), state, 0)


def tall_with_nots():
    """The same with names and `not`, which takes half of the depth."""
    text = "a or b and x"
    for number in range(DEPTH // 2):
        first, second = ("bx", "xy", "ya", "ab")[number % 4]
        text = f"{first} or {second} and not ({text})"
    for state in range(16):
        yield (f"state {state} -> passes 98",
               with_values([text, f"{text} and a"]), state, 0)


def balanced(height, leaves):
    """A tree of that height, with `and` and `or` by turns."""
    if height == 0:
        return next(leaves)
    parts = []
    for _ in range(2):
        part = balanced(height - 1, leaves)
        parts.append(f"({part})" if height > 1 else part)
    return (" or ", " and ")[height % 2].join(parts)


def wide():
    """Trees of which both sides are equally high."""
    names = "a", "not x", "b", "y", "x", "not a", "1", "not b", "0"
    for height in (2, 3, 5, 8):
        leaves = (names[j % 9] for j in range(1 << height))
        text = with_values([balanced(height, leaves)])
        for state in range(0, 16, 3 if height == 8 else 1):
            yield f"{height} high, state {state}", text, state, 0


GROUPS = (every_depth, at_every_place, nested_operands, tallest,
          tall_with_nots, wide)
