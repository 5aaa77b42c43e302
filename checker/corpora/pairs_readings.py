"""Traces by which readings of the notation differ: one step that is meant,
and one that another reading would take."""

from inputs.cases import trace_for
from inputs.phrases import command, loop, model


def broken(shared, row, *commands):
    """A model in which every state starts and breaks: steps alone decide."""
    return model(shared, row, keep=("0", "1"), commands=commands)


# What is shown, a model, a state, the step from it, and the other step.
READINGS = (
    ("a value sees what was written before",
     broken("a b", "", command(yes="a := b; b := a")),
     2, (0, 0, 3), (0, 0, 1)),
    ("a test is judged before the items run",
     broken("a b", "", command("c", "a", "a := 0; b := 1", "b := 0")),
     1, (0, 0, 2), (0, 0, 0)),
    ("a loop sees what was written before it",
     broken("a", "x", command(yes="a := 1; " + loop("a", "x := 1"))),
     0, (0, 0, 3), (0, 0, 1)),
    ("a loop does not see what is written after it",
     broken("a", "x", command(yes=loop("a", "x := 1") + "; a := 1")),
     0, (0, 0, 1), (0, 0, 3)),
    ("a condition is judged before the row items run",
     broken("", "x y", command(yes=loop("x", "x := 0; y := 1", "y := 0"))),
     1, (0, 0, 2), (0, 0, 0)),
    ("row values see what was written before",
     broken("", "x y", command(yes=loop("1", "x := y; y := x"))),
     2, (0, 0, 3), (0, 0, 1)),
    ("a second loop sees what the first wrote",
     broken("", "x y", command(
         yes=loop("1", "x := 1") + "; " + loop("x", "y := 1"))),
     0, (0, 0, 3), (0, 0, 1)),
    ("not before and",
     broken("a b", "x", command("c", "not a and b", loop(yes="x := 1"))),
     0, (0, 0, 0), (0, 0, 4)),
    ("and before or",
     broken("a b d", "", command("c", "a or b and d", "b := 1")),
     1, (0, 0, 3), (0, 0, 1)),
    ("parentheses before and",
     broken("a b d", "", command("c", "(a or b) and d", "b := 1")),
     1, (0, 0, 1), (0, 0, 3)),
    ("stars are numbered as they stand",
     broken("a b", "x", command(
         yes=f"b := *; {loop(yes='x := *')}; a := *")),
     0, (0, 1, 2), (0, 1, 1)),
    ("stars of a branch not taken have their numbers",
     broken("a b", "", command("c", "a", "b := *", "b := *")),
     0, (0, 2, 2), (0, 1, 2)),
    ("stars of a loop's other branch have their numbers",
     broken("", "x y", command(yes=loop("*", "x := *", "y := *"))),
     0, (0, 4, 2), (0, 2, 2)),
    ("stars are numbered anew in a command",
     broken("a b", "", command("c", yes="a := *"),
            command("d", yes="b := *")),
     0, (1, 1, 2), (0, 1, 2)),
    ("shared names are the low bits",
     broken("a", "x", command(yes=loop(yes="x := 1"))),
     0, (0, 0, 2), (0, 0, 1)),
    ("a set bit means true",
     broken("a", "", command(yes="a := *")),
     0, (0, 1, 1), (0, 0, 1)),
)


def readings():
    for detail, text, start, right, wrong in READINGS:
        yield f"{detail} -> trace holds", text, trace_for(text, start, right)
        yield (f"{detail}, read otherwise -> E",
               text, trace_for(text, start, wrong))
    unread = broken("a", "", command("c", "0", "a := *"))
    for word in (0, 1):
        yield (f"a star that is not read, word {word} -> trace holds",
               unread, trace_for(unread, 0, (0, word, 0)))


def clauses():
    """Both parts of `start` and `keep` count, in every state of two names."""
    start = model("a", "x", start=("a", "x"), keep=("0", "1"))
    keep = model("a", "x", keep=("not a", "not x"))
    for state in range(4):
        meant = "trace holds" if state == 3 else "D"
        yield f"start in {state} -> {meant}", start, trace_for(start, state)
        meant = "trace holds" if state else "F"
        yield f"keep in {state} -> {meant}", keep, trace_for(keep, state)


GROUPS = (readings, clauses)
