"""Each name and each star by itself, with its bit alone set or alone not."""

from corpora.pairs_models import under
from corpora.reports_runs import names_of
from inputs.phrases import assigned, command, list_of, loop, model

SPLITS = ((8, 4), (2, 10), (6, 6), (3, 9), (8, 0), (0, 10), (5, 2), (1, 3),
          (1, 1), (1, 0), (0, 1))


def lone(count):
    """Numbers below 2 ** count in which one bit differs from all others, and
    those in which none does."""
    full = (1 << count) - 1
    return sorted({0, full} | {1 << j for j in range(count)}
                  | {full ^ 1 << j for j in range(count)})


def names():
    """Each name as a value: of a row name, or of a shared one where there is
    no other; the first and the last of them in the clauses too."""
    for shared, row in SPLITS:
        low, high = names_of(shared, row)
        first = (low[0] if low else "1", (low + high)[-1])
        last = (low[-1] if low else "0", (low + high)[0])
        items = (loop("1", assigned("r0", low + high)) if high
                 else assigned("s0", low))
        text = model(" ".join(low), " ".join(high), first, last,
                     [command(yes=items)])
        for state in lone(shared + row):
            yield f"{shared} and {row}, state {state}", text, state, 0


def names_elsewhere():
    """Each name as a condition, each shared name as a value after `else` and
    as a test, from the last to the first."""
    for shared, row in ((8, 4), (2, 10)):
        low, high = names_of(shared, row)
        text = model(" ".join(low), " ".join(high), commands=[
            command("c", "1", ";".join(map(loop, (low + high)[::-1])),
                    assigned("s0", low[::-1]))]
            + [command(f"c{j}", name) for j, name in enumerate(low[::-1])])
        for state in lone(shared + row):
            yield f"{shared} and {row}, state {state}", text, state, 255


# Where the eight stars of a command stand, each an expression of its own.
ALONE = (
    ("values after do", command(yes=list_of("a := *", 8))),
    ("values after else", command(no=list_of("a := *", 8))),
    ("values on both sides", command(yes=list_of("a := *", 3),
                                     no=list_of("b := *", 5))),
    ("conditions", command(yes=list_of(loop("*"), 8))),
    ("conditions on both sides", command(yes=list_of(loop("*"), 5),
                                         no=list_of(loop("*"), 3))),
    ("row items after do", command(yes=loop(yes=list_of("x := *", 8)))),
    ("row items after else", command(no=loop(no=list_of("x := *", 8)))),
    ("row items on both sides", command(
        yes=loop(yes=list_of("x := *", 2), no=list_of("y := *", 6)))),
    ("two loops", command(
        yes=loop("*", "x := *", "y := *") + ";" + loop("*", "x := *"),
        no=loop("*", "y := *", "x := *"))),
    ("all places", command(
        "c", "*", "a := *;" + loop("*", "x := *", "y := *"),
        loop("*", "y := *") + ";b := *")),
    ("the test and values", command("c", "*", list_of("a := *", 7))),
)


def stars():
    for detail, one in ALONE:
        text = model(commands=[one])
        for word in lone(8):
            yield f"{detail}, word {word}", text, 0, word


def in_tests():
    """All eight in one expression, which is true under one word alone."""
    for here in (1, 2, 4, 8, 16, 32, 64, 128, 0, 255, 90, 165):
        words = {here} | {here ^ 1 << j for j in range(8)}
        for detail, one in (
                ("a test", command("c", under(here))),
                ("a value", command(no=f"a := {under(here)}")),
                ("a condition", command(yes=loop(under(here)))),
                ("a row item", command(yes=loop("x",
                                                f"x := {under(here)}")))):
            for word in sorted(words if detail == "a test" else
                               {here, here ^ 1, here ^ 128}):
                yield (f"{detail} for {here}, word {word}",
                       model(commands=[one]), 15 ^ here & 15, word)


def in_every_command():
    """The numbers begin anew in each command."""
    for count in (2, 3, 16):
        text = model(commands=[
            command(f"c{j}", "*", f"a := *;{loop('*', 'x := *', 'y := *')}",
                    "b := * and a; a := b or *")
            for j in range(count)])
        for word in (lone(7) if count < 16 else (1, 2, 64, 85)):
            yield f"{count} commands, word {word}", text, 0, word
    uneven = [command("c", "a", "a := *"), command("d", "* or *", "a := *"),
              command("e"), command("f", "*", no=list_of("b := *", 7)),
              command("g", "0", loop("*", "x := * and *"))]
    for word in lone(8):
        yield (f"unequal commands, word {word}", model(commands=uneven), 2,
               word)


def beyond_the_stars():
    """Bits of the word that no star of a command has mean nothing there."""
    for count in range(9):
        text = model(commands=[
            command("few", "a", list_of("a := *", count) or "skip"),
            command("one", "*"), command("none", "b")])
        full = (1 << count) - 1
        for word in sorted({full, 255, 255 ^ full, 128, 1 << count & 255}):
            yield f"{count} stars, word {word}", text, 2, word


def in_order():
    """Stars have their numbers by their places in the text, however they are
    grouped."""
    text = model(commands=[command(
        "c", "* or (* and *) and not *", "a := (* or *) and *; b := *")])
    for word in range(256):
        if word % 5 == 0 or word in lone(8):
            yield f"word {word}", text, 0, word


def clauses():
    """No star can stand in a clause, whatever the word is."""
    text = model(start=("a and not b", "x or y and a"),
                 keep=("not (a or b)", "not x and y or b"),
                 commands=[command("c", "*", "a := *")])
    for state in range(16):
        for word in (0, 3, 15, 240, 255):
            yield f"state {state}, word {word}", text, state, word


GROUPS = (names, names_elsewhere, stars, in_tests, in_every_command,
          beyond_the_stars, in_order, clauses)
