"""Models whose first breaking run is known: counters, and models in which
one choice word, one command or one start state leads on."""

from corpora.pairs_models import exactly, idle, sixteen, under
from inputs.phrases import LONG, command, loop, model, numbered


def names_of(shared, row):
    return (numbered("s", shared).split(), numbered("r", row).split())


def one_more(names, number):
    """A value that counts the bit up when all lower bits are set."""
    name, lower = names[number], " and ".join(names[:number])
    if not lower:
        return f"{name} := not {name}"
    return f"{name} := {name} and not ({lower}) or not {name} and {lower}"


def counter(shared, row, first=0, last=None, test="1", name="up"):
    """Each step adds one to the number of the state; `last` breaks."""
    shared, row = names_of(shared, row)
    names = shared + row
    high = [one_more(names, j) for j in reversed(range(len(shared),
                                                       len(names)))]
    low = [one_more(names, j) for j in reversed(range(len(shared)))]
    items = ([loop(yes="; ".join(high))] if high else []) + low
    start = (exactly(shared, first) or "1",
             exactly(row, first >> len(shared)) or "1")
    keep = "1" if last is None else f"not ({exactly(names, last)})"
    return model(" ".join(shared), " ".join(row), start, ("1", keep),
                 [command(name, test, "; ".join(items))])


def counters():
    for shared, row in ((1, 0), (0, 1), (2, 0), (1, 1), (0, 3), (4, 0),
                        (2, 3), (3, 3), (7, 0), (8, 0), (0, 9), (5, 5),
                        (1, 10), (8, 4), (2, 10)):
        count = (1 << shared + row) - 1
        yield (f"{shared} and {row} bits, all the way -> unsafe {count}",
               counter(shared, row, 0, count))
    for first, last in ((0, 0), (0, 1), (2047, 2048), (4095, 0), (4094, 1),
                        (255, 256), (4000, 95)):
        count = (last - first) % 4096
        yield (f"12 bits, {first} to {last} -> unsafe {count}",
               counter(6, 6, first, last))
    yield "12 bits, all states reached -> safe", counter(8, 4)
    yield "12 bits, no step -> safe", counter(8, 4, 0, 4095, test="0")
    yield ("a long name and the last word -> unsafe 511",
           counter(4, 5, 0, 511, under(255), LONG))
    yield ("the last of two words -> unsafe 2047",
           counter(6, 5, 0, 2047, "*"))


def one_word():
    """One choice word leads on, read before the branch or in the loop."""
    tried = [(count, (1 << count) - 1) for count in range(1, 9)]
    tried += [(7, word) for word in (63, 64, 65, 100, 126)]
    tried += [(8, word) for word in (0, 1, 63, 64, 65, 127, 128, 129, 191,
                                     192, 254)]
    for count, word in tried:
        test = under(word, count)
        for detail, one in (
                ("read outside", command("c", test, loop(yes="x := 1"))),
                ("read inside", command(yes=loop(test, "x := 1")))):
            yield (f"{count} stars, word {word}, {detail} -> unsafe 1",
                   model("a", "x", ("not a", "not x"), ("1", "not x"), [one]))
    for count in (7, 8):
        words = 1 << count
        test = under(words - 1, count)
        yield (f"{count} stars, no word that breaks -> safe",
               model("a", "x", ("not a", "not x"), ("1", "not x or a"),
                     [command("c", test, "a := 1; " + loop(yes="x := 1"))]))


def one_command():
    for count in range(2, 17):
        for place in sorted({0, count // 2, count - 1}):
            said = [command(f"c{j}", "1", "a := 1" if j == place else "skip")
                    for j in range(count)]
            yield (f"{place} of {count} -> unsafe 1",
                   model("a", "x", ("not a", "1"), ("not a", "1"), said))


def last_word_of_last_command():
    """Sixteen commands of eight stars; what counts comes last in a state."""
    one = command("last", under(255), "a := 1")
    yield ("one step -> unsafe 1",
           sixteen(one, keep=("not a", "1")))
    two = command("last", under(255),
                  f"b := a; a := 1; {loop('b', 'x := 1')}")
    yield "two steps -> unsafe 2", sixteen(two, keep=("1", "not x"))
    yield ("a word from 64 up, then the last -> unsafe 2", sixteen(
        command("high", under(64), "a := 1"),
        command("last", under(255), "b := a"), keep=("not b", "1")))
    yield ("two commands in turn, the later first -> unsafe 2", sixteen(
        command("early", under(254), "b := a"),
        command("late", under(129), "a := 1"), keep=("not b", "1")))
    shared, row = names_of(8, 4)
    start = exactly(shared, 0), exactly(row, 0)
    last = command("last", under(255), "s7 := s6; s6 := s0; s0 := 1; "
                   + loop("s7", "r3 := 1"))
    for detail, keep in (("three steps -> unsafe 3", "not r3"),
                         ("four states -> safe", "not r2")):
        yield f"12 names, {detail}", model(
            " ".join(shared), " ".join(row), start, ("1", keep),
            idle(15) + [last])
    yield ("nothing leads on -> safe", model(
        "a b c", "x", ("not a and not b and not c", "not x"),
        ("not a", "1"), idle(16)))


def one_start():
    """Every state of four names is a start state, and one leads on."""
    names = ("a", "b", "x", "y")
    for state in range(16):
        step = command(yes=loop(exactly(names, state), "z := 1"))
        yield (f"{state} -> unsafe 1",
               model("a b", "x y z", ("1", "not z"), ("1", "not z"), [step]))
        start = f"not ({exactly(names, state)})"
        yield (f"all but {state} -> safe",
               model("a b", "x y z", ("1", f"not z and {start}"),
                     ("1", "not z"), [step]))


def broken_start():
    """A start state breaks; which one comes first."""
    names = ("a", "b", "x")
    for state in range(8):
        yield (f"from {state} up -> unsafe 0",
               model("a b", "x", ("1", "1"),
                     ("1", " and ".join(f"not ({exactly(names, other)})"
                                        for other in range(state, 8)))))
    yield "12 bits, the last -> unsafe 0", counter(8, 4, 4095, 4095)
    yield ("12 bits, all but one start -> unsafe 0",
           model(numbered("s", 8), numbered("r", 4),
                 ("1", f"not ({exactly(['s0', 's1', 'r0', 'r1'], 0)})"),
                 ("0", "1")))


GROUPS = (counters, one_word, one_command, last_word_of_last_command,
          one_start, broken_start)
