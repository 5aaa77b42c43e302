"""Truth tables of expressions with a few operands, and chains."""

from itertools import product

from inputs.phrases import assigned, command, loop, model, numbered

OPERATORS = ("and", "or")

# How two to four operands can be grouped; the first has no parentheses.
TWO = "{0} {2} {1}", "({0}) {2} ({1})", "({0} {2} {1})", "not ({0} {2} {1})"
THREE = ("{0} {3} {1} {4} {2}", "({0} {3} {1}) {4} {2}",
         "{0} {3} ({1} {4} {2})")
NOT_THREE = ("not ({0} {3} {1}) {4} {2}", "{0} {3} not ({1} {4} {2})",
             "not ({0} {3} {1} {4} {2})", "not (not {0} {3} {1}) {4} {2}")
FOUR = ("{0} {4} {1} {5} {2} {6} {3}", "(({0} {4} {1}) {5} {2}) {6} {3}",
        "({0} {4} ({1} {5} {2})) {6} {3}", "({0} {4} {1}) {5} ({2} {6} {3})",
        "{0} {4} (({1} {5} {2}) {6} {3})", "{0} {4} ({1} {5} ({2} {6} {3}))")


def negated(names):
    """The names with `not` before none, some or all of them."""
    for signs in product(("", "not "), repeat=len(names)):
        yield [sign + name for sign, name in zip(signs, names)]


def two_operands(a, b):
    for form, operator, said in product(TWO, OPERATORS, negated((a, b))):
        yield form.format(*said, operator)


def three_operands(names):
    for form, first, second in product(THREE, OPERATORS, OPERATORS):
        for said in negated(names):
            yield form.format(*said, first, second)
    for form, first, second in product(NOT_THREE, OPERATORS, OPERATORS):
        yield form.format(*names, first, second)


def four_operands(names):
    for form, *joined in product(FOUR, *[OPERATORS] * 3):
        yield form.format(*names, *joined)


def in_all_states(commands):
    """Of the names a, b, x and y."""
    for state in range(16):
        yield f"state {state}", model(commands=commands), state, 0


def pairs_of_names():
    return in_all_states([
        command(yes=assigned("b", two_operands("a", "b")),
                no=loop("1", assigned("x", two_operands("x", "b"))))])


def threes_of_shared_names():
    text = model("a b d", "", commands=[
        command(yes=assigned("a", three_operands(("a", "b", "d"))))])
    for state in range(8):
        yield f"state {state}", text, state, 0


def threes_of_both_kinds():
    text = model("b", "x y", commands=[
        command(no=loop("x", assigned("y", three_operands(("y", "b", "x")))))])
    for state in range(8):
        yield f"state {state}", text, state, 0


def fours():
    return in_all_states([command(
        yes=loop("1", assigned("x", four_operands(("b", "y", "a", "x")))))])


def threes_of_stars():
    """Two expressions to a command, as each has three stars."""
    forms = [form.format("*", "*", "*", first, second)
             for form, first, second in product(THREE + NOT_THREE, OPERATORS,
                                                OPERATORS)]
    for part in (forms[:16], forms[12:]):
        text = model(commands=[
            command(f"c{j}", yes=assigned("a", part[2 * j:2 * j + 2]))
            for j in range(len(part) // 2)])
        for word in sorted({*range(8), *range(0, 64, 9), 56, 63}):
            yield f"{part[0]}, word {word}", text, 0, word


def constants():
    """All that three constants can say."""
    said = [form.format(*bits, first, second)
            for form, first, second in product(THREE, OPERATORS, OPERATORS)
            for bits in product("01", repeat=3)]
    said += [*two_operands("0", "1"), *two_operands("1", "0")]
    yield "shared", model(commands=[command(yes=assigned("a", said))]), 5, 170
    yield "row", model(commands=[
        command(yes=loop("0", assigned("x", said)))]), 10, 85


def nots():
    said = [f"{'not ' * count}{operand}" for count in range(6)
            for operand in ("a", "(a)", "(not a)", "0", "1", "*")
            if operand != "*" or count in (0, 1, 2, 5)]
    said += ["not (not (not a))", "not ((a))", "(not (a))",
             "not a and not b", "not a or not b", "not not a and b",
             "not (a) and b", "not (a) or b", "not (a and b)",
             "not (a or b)", "not a and b or not a"]
    text = model(commands=[command(yes=assigned("a", said))])
    for state in range(4):
        for word in (0, 10, 255):
            yield f"state {state}, word {word}", text, state, word


def chains():
    """Of up to twelve names: one is set alone, or alone is not."""
    names = f"{numbered('s', 5)} {numbered('r', 7)}".split()
    said = [f" {operator} ".join(names[:count])
            for operator in OPERATORS for count in (2, 3, 4, 7, 11, 12)]
    text = model(numbered("s", 5), numbered("r", 7), commands=[
        command(yes=loop("1", assigned("r0", said)))])
    for j, name in enumerate(names):
        yield f"{name} alone", text, 1 << j, 0
        yield f"all but {name}", text, 4095 ^ 1 << j, 0


def grouped_chains():
    """Of one operator and of both, with parentheses and without."""
    said = []
    for one, other in product(OPERATORS, OPERATORS):
        said += [f"a {one} b {other} x {one} y",
                 f"((a {one} b) {other} x) {one} y",
                 f"a {one} (b {other} (x {one} y))",
                 f"(a {one} b) {other} (x {one} y)",
                 f"a {one} b {one} (x {other} y) {one} a",
                 f"(a {one} b {one} x) {other} y {other} b",
                 f"not a {one} b {other} not x {one} y",
                 f"a {one} b {other} x {one} y {other} not a {one} not b"]
    return in_all_states([command(yes=loop("y", assigned("y", said)))])


GROUPS = (pairs_of_names, threes_of_shared_names, threes_of_both_kinds, fours,
          threes_of_stars, constants, nots, chains, grouped_chains)
