"""Clauses `start` that no state satisfies, by what is to blame, and clauses
that a single state satisfies."""

# What is to blame, shared names, row names, both parts.
NOTHING_STARTS = (
    ("the shared part", "a", "x", ("a and not a", "1")),
    ("the shared part, a constant", "a", "x", ("0", "1")),
    ("the shared part, two names", "a b", "", ("a and b and not b", "1")),
    ("the shared part beside one that can hold", "a", "x",
     ("not (a or not a)", "x")),
    ("the each part", "a", "x", ("1", "x and not x")),
    ("the each part, a constant", "a", "x", ("1", "0")),
    ("the each part, by a shared name", "a", "x", ("1", "a and not a")),
    ("the each part beside one that can hold", "a", "x",
     ("a", "x and not x")),
    ("either part", "a", "x", ("a and not a", "x and not x")),
    ("both together", "a", "x", ("a", "not a")),
    ("both together, the other way round", "a", "x", ("not a", "a and x")),
    ("both together, in every row", "a", "x", ("a", "x and not (x and a)")),
    ("both together, two names", "a b", "", ("a and not b", "not a or b")),
    ("the shared part without row names", "a", "", ("a and not a", "1")),
    ("the each part without row names", "a", "", ("1", "a and not a")),
    ("both together without row names", "a", "", ("not a", "a")),
    ("the shared part without shared names", "", "x", ("0", "1")),
    ("the each part without shared names", "", "x y",
     ("1", "x and y and not y")),
    ("the shared part without names", "", "", ("0", "1")),
    ("the each part without names", "", "", ("1", "0")),
    ("either part without names", "", "", ("0", "0")),
)

# What is shown, shared names, row names, both parts, the state.
ONE_STARTS = (
    ("the first", "a", "x", ("not a", "not x"), 0),
    ("the last", "a", "x", ("a", "x"), 3),
    ("by the each part", "a", "x", ("1", "a and not x"), 1),
    ("parts that exclude each other in the other states", "a", "x",
     ("not a", "a or x"), 2),
    ("without row names", "a b", "", ("a and b", "1"), 3),
    ("by both parts without row names", "a b", "", ("a", "not b"), 1),
    ("without shared names", "", "x", ("1", "x"), 1),
    ("without names", "", "", ("1", "1"), 0),
)
