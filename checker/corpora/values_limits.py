"""Texts with as many nodes, items and commands as can be, and one beyond."""

from corpora.texts_limits import everything, full
from corpora.values_places import PLACES, filled, is_row
from inputs.phrases import (assigned, command, expression, list_of, loop,
                            model, numbered)

MOST_NODES = 1024


def spread_over(count, nodes):
    """So many sizes, nearly equal, that have the sum asked for."""
    return [nodes * (j + 1) // count - nodes * j // count
            for j in range(count)]


def meant(nodes):
    return f"passes {nodes}" if nodes <= MOST_NODES else "refused 7"


def nearly_all():
    """One place has all nodes that the others leave: twelve have one each."""
    for place, name in enumerate(PLACES):
        said = ["1"] * 13
        said[place] = expression(MOST_NODES - 12, "y" if is_row(name) else "b",
                                 ("and", "or")[place % 2])
        yield (f"in {name} -> passes 1024", filled(*said),
               (0, 15)[place // 2 % 2], 0)
    said[-1] = f"not {said[-1]}"
    yield "one more in the last -> refused 7", filled(*said), 0, 0


def in_one():
    """A test of 1,019 nodes, in which one operand decides."""
    for operator, neutral in (("and", "1"), ("or", "0")):
        for place in (0, 255, 509):
            operands = [neutral] * 510
            operands[place] = "b"
            test = f" {operator} ".join(operands)
            for state in (2, 13):
                yield (f"{operator}, operand {place}, state {state} "
                       "-> passes 1023",
                       model(commands=[command("c", test)]), state, 0)
        for count in (1, 2):
            yield (f"{operator}, {count} more -> {meant(1023 + count)}",
                   model(commands=[command("c", "not " * count + test)]), 2, 0)


def around_a_byte():
    """A test of so many nodes, and so many in all."""
    for size in (127, 128, 129, 255, 256, 257, 511, 512, 513):
        for test in (size, size - 4):
            yield (f"{test} -> passes {test + 4}",
                   model(commands=[command("c", expression(test, "b"))]),
                   (0, 2)[size % 2], 0)


def in_few():
    for count in (2, 3, 7, 16):
        for nodes in (1024, 1025):
            values = [expression(size, "b", "or")
                      for size in spread_over(count, nodes - 5)]
            yield (f"{nodes} in {count} values -> {meant(nodes)}",
                   model(commands=[command(yes=assigned("a", values))]), 2, 0)


def in_many():
    """All items have an expression, or all that can: `skip` stands after
    each `else`, and on both sides in a loop."""
    for nodes in (1024, 1025):
        values = [expression(size, "ab"[j % 2])
                  for j, size in enumerate(spread_over(255, nodes - 5))]
        text = model(commands=[command(yes=assigned("a", values))])
        for state in (1, 2):
            yield (f"{nodes} in 255 values, state {state} -> {meant(nodes)}",
                   text, state, 0)
    loops = [loop(expression(size, "xy"[j % 2]))
             for j, size in enumerate(spread_over(85, MOST_NODES - 5))]
    for state in (4, 8):
        yield (f"in 85 conditions, state {state} -> passes 1024",
               model(commands=[command(yes=";".join(loops))]), state, 0)
    values = [expression(size, "yxa"[j % 3])
              for j, size in enumerate(spread_over(254, MOST_NODES - 6))]
    one = loop("1", assigned("x", values[:100]), assigned("y", values[100:]))
    for state in (1, 4, 8):
        yield (f"in 254 row items, state {state} -> passes 1024",
               model(commands=[command(yes=one)]), state, 0)


def most_expressions():
    """Sixteen commands of sixteen items, each of which has an expression:
    276 in all."""
    for nodes in (276, 1024, 1025):
        said = [expression(size, "ab"[j % 2])
                for j, size in enumerate(spread_over(276, nodes))]
        commands = []
        for j in range(16):
            test, *values = said[4 + 17 * j:21 + 17 * j]
            first = 1 + j % 15
            commands.append(command(f"c{j}", test,
                                    assigned("a", values[:first]),
                                    assigned("b", values[first:])))
        text = model(start=said[:2], keep=said[2:4], commands=commands)
        for state in (1, 2):
            yield (f"{nodes} nodes, state {state} -> {meant(nodes)}", text,
                   state, 0)


def most_items():
    """256 of them, with few expressions and with many, and one more."""
    for detail, passes, said in (
            ("skips", 5, ["skip"] * 255),
            ("values", 260, ["a:=b"] * 255),
            ("skips, then stars", 21, ["skip"] * 247 + ["a:=not *"] * 8),
            ("stars, then skips", 21, ["a:=not *"] * 8 + ["skip"] * 247)):
        yes = ";".join(said)
        yield (f"{detail} -> passes {passes}",
               model(commands=[command(yes=yes)]), 2, 129)
        yield (f"{detail}, one more -> refused 7",
               model(commands=[command(yes=yes, no=list_of("skip", 2))]), 2, 0)


def most_commands():
    """Sixteen, with tests of one to sixteen nodes, and seventeen."""
    said = [command(f"c{j}", expression(7 * j % 16 + 1, "ab"[j % 2], "or"))
            for j in range(16)]
    for count in (1, 2, 15, 16):
        passes = 4 + sum(7 * j % 16 + 1 for j in range(count))
        for state in (1, 2):
            yield (f"{count}, state {state} -> passes {passes}",
                   model(commands=said[:count]), state, 0)
    yield "17 -> refused 7", model(commands=said + [command("c")]), 0, 0
    for here in range(16):
        said = [command(f"c{j}", "1" if j == here else "0")
                for j in range(16)]
        yield f"{here} alone is true -> passes 20", model(commands=said), 0, 0


def all_limits():
    for state, word in ((0, 0), (4095, 255), (1365, 170), (2730, 85)):
        yield (f"all, state {state} -> passes 1024", everything(256, 1024, 8),
               state, word)
    yield "one node more -> refused 7", everything(256, 1025, 8), 0, 0
    yield "as many bytes as can be", full(16384), 4032, 0
    for shared, row in ((8, 4), (2, 10)):
        low, high = numbered("s", shared), numbered("r", row)
        text = model(low, high, (low.replace(" ", " and "),
                                 high.replace(" ", " or ")))
        for state in (4095, 0, (1 << shared) - 1, 1 << shared, 2047, 2048):
            yield (f"{shared} and {row} names, state {state} -> passes 25",
                   text, state, 0)


GROUPS = (nearly_all, in_one, around_a_byte, in_few, in_many,
          most_expressions, most_items, most_commands, all_limits)
