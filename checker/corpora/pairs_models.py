"""Models that say exactly which state or choice word they care for."""

from inputs.phrases import command, loop, model, numbered, stars


def exactly(names, state):
    """True in that state alone, where the names are all names in order."""
    return " and ".join(name if state >> j & 1 else f"not {name}"
                        for j, name in enumerate(names))


def under(word, count=8):
    """So many stars, true under that choice word alone."""
    return " and ".join("*" if word >> j & 1 else "not *"
                        for j in range(count))


def tossing(shared, row):
    """A command that sets the last name freely, if there is one."""
    names = f"{shared} {row}".split()
    if not names:
        return command()
    item = f"{names[-1]} := *"
    return command(yes=loop(yes=item) if row else item)


def subsets(count):
    for bits in range(1 << count):
        yield {state for state in range(count) if bits >> state & 1}


def quiet(count):
    """So many names, every state a start state that is kept, no changes."""
    return model(numbered("s", min(count, 8)), numbered("r", count - 8))


def starred(counts):
    """A command for each count, which has so many stars and changes
    nothing."""
    return [command(f"c{j}", stars(count) or "1")
            for j, count in enumerate(counts)]


def idle(count):
    """So many commands of eight stars, which change nothing."""
    return starred([8] * count)


def sixteen(*changing, keep=("1", "1")):
    """Four names and sixteen commands, of which the last are given; a run
    begins in state 0."""
    return model("a b c", "x", (exactly("abc", 0), "not x"), keep,
                 idle(16 - len(changing)) + list(changing))
