"""Models that have an expression in every place where one can stand."""

import random

from inputs.phrases import command, expression, loop, model

PLACES = ("start shared", "start row", "keep shared", "keep row", "test",
          "do value", "do condition", "do for do", "do for else",
          "else value", "else condition", "else for do", "else for else")
CLAUSES = 4
PRIMES = (2, 3, 5, 7, 11, 13, 17, 19, 23, 29, 31, 37, 41)


def is_row(place):
    """Whether row names may stand there too."""
    return "row" in place or "condition" in place or "for" in place


def one_command(name, test, *values):
    """A command with all of its places filled, in the order of PLACES."""
    sides = []
    for value, condition, yes, no in (values[:4], values[4:]):
        sides.append(f"a := {value}; "
                     + loop(condition, f"x := {yes}", f"y := {no}"))
    return command(name, test, *sides)


def filled(*said):
    """A text with these expressions in its places; from the fifth on each
    nine are a command's."""
    commands = [one_command(f"c{j}", *said[j:j + 9])
                for j in range(CLAUSES, len(said), 9)]
    return model(start=said[:2], keep=said[2:4], commands=commands)


def of_sizes(sizes):
    """A text with expressions of so many nodes."""
    places = PLACES + PLACES[CLAUSES:] * 15
    return filled(*(expression(size, "y" if is_row(place) else "b")
                    for place, size in zip(places, sizes)))


def places():
    """No two places have equally many nodes."""
    rng = random.Random(61)
    orders = [("ascending", range(1, 14)), ("descending", range(13, 0, -1)),
              ("primes", PRIMES), ("primes, descending", PRIMES[::-1])]
    orders += [(f"shuffled {j}", rng.sample(PRIMES, 13)) for j in range(4)]
    orders += [("two commands", range(1, 23)),
               ("three commands", range(31, 0, -1)),
               ("four commands", rng.sample(range(1, 41), 40))]
    for detail, sizes in orders:
        for state in (0, 2, 8, 15):
            yield (f"{detail}, state {state} -> passes {sum(sizes)}",
                   of_sizes(sizes), state, 0)


def one_larger():
    """One place has more nodes than all others together."""
    for place, name in enumerate(PLACES):
        for size in (20, 31):
            sizes = [1] * 13
            sizes[place] = size
            for state in (0, 15):
                yield (f"{size} in {name}, state {state} "
                       f"-> passes {12 + size}", of_sizes(sizes), state, 0)


def one_true():
    """One place is true and all others false, or the other way round."""
    for place, name in enumerate(PLACES):
        for value, other in ("10", "01"):
            said = [other] * 13
            said[place] = value
            yield f"{value} in {name} -> passes 13", filled(*said), 0, 0


def own_state():
    """Each value is that in the state given, whatever was written before."""
    shared = command(yes="a := not a; a := not a; b := a; a := b")
    row = command(yes=loop("a", "x := not x; y := x; x := y",
                           "x := not x; x := not x"))
    both = command("c", "a", "a := 0; b := a; " + loop("a or b", "x := 1"),
                   "a := 1; b := a; " + loop("a and x", "x := a"))
    several = [command("c", "a", "a := 0", "a := 1"), command("d", "a"),
               command("e", "b", loop("a", "x := a", "x := not a")),
               command("f", "1", loop("x", "y := x", "x := y"))]
    for detail, passes, commands in (
            ("shared names", 11, [shared]), ("row names", 14, [row]),
            ("both kinds", 17, [both]), ("several commands", 17, several)):
        for state in range(16):
            yield (f"{detail}, state {state} -> passes {passes}",
                   model(commands=commands), state, 0)


GROUPS = (places, one_larger, one_true, own_state)
