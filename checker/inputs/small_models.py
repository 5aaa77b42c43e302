"""Random models small enough to walk over tables of three rows."""

from inputs.phrases import command, loop, model


def operand(rng, names, star):
    return rng.choice(list(names) * 3 + ["0", "1"] + ["*"] * 6 * star)


def expression(rng, names, star):
    """At most one star, so that a table of three rows stays small."""
    first = operand(rng, names, star)
    second = operand(rng, names, 0)
    form = rng.choice(["{0}", "not {0}", "{0} and {1}", "{0} or not {1}",
                       "not ({0} or {1})"])
    return form.format(first, second)


def assignments(rng, targets, readable):
    """One or two assignments; `skip` where there is nothing to assign to."""
    if not targets:
        return "skip"
    return "; ".join(
        f"{rng.choice(targets)} := {expression(rng, readable, rng.random() < 0.4)}"
        for _ in range(rng.randint(1, 2)))


def items(rng, shared, row):
    kind = rng.randrange(3)
    if kind == 0:
        return "skip"
    if kind == 1:
        return assignments(rng, shared, shared)
    inside = [assignments(rng, row, shared + row) for _ in range(2)]
    condition = expression(rng, shared + row, rng.random() < 0.2)
    return loop(condition, inside[0], inside[1])


def small_text(rng):
    shared = ["a", "b"][:rng.choice((0, 1, 2, 2))]
    row = ["x", "y"][:rng.choice((0, 1, 2, 2))]

    def clause():
        # Without names the part would be a constant, and false half the time.
        return (expression(rng, shared, False) if shared else "1",
                expression(rng, shared + row, False) if row else "1")

    def one(name):
        return command(name, expression(rng, shared, rng.random() < 0.2),
                       items(rng, shared, row), items(rng, shared, row))

    start, keep = clause(), clause()
    if rng.random() < 0.8:
        # Where no start state breaks, only steps can.
        start = tuple(rng.choice([good, f"({good}) and ({some})"])
                      for good, some in zip(keep, start))
    return model(" ".join(shared), " ".join(row), start, keep,
                 [one(name) for name in ["c", "d"][:rng.choice((1, 2, 2))]])
