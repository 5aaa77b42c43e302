"""The sentences that plain text and page have in common."""

from shlex import quote

from reservations import rounded_up

# In nanoseconds.
MILLISECOND, SECOND = 10 ** 6, 10 ** 9
SAFE = ("No run of any length, over a table of one row or more, breaks the "
        "property.")
VOID = ("No state satisfies `start`, so no table of one row or more has a "
        "start state, and there is no run at all.")
COPIES = ("The same run, with its row copied into every row and the same "
          "choices in every row, is a run over any table of one row or more.")
BREAKS = "The last state breaks the property:"
CHANGES = "A value that a step changes is shown as before{0}after."
STARS = ("A star has its number within its command; where the step does not "
         "come to it, its choice has no effect.")


def refused(file, number, said):
    place = f":{said.line}:{said.column}" if said.excerpt else ""
    return f"{file}{place}: refused {number}: {said.meaning}"


def counted(count, thing):
    return f"{count:,} {thing}{'' if count == 1 else 's'}"


def model(counts):
    shared, row, commands = counts
    return ", ".join([counted(shared, "shared name"),
                      counted(row, "row name"),
                      counted(commands, "command")])


def verdict(file, word, counts):
    return f"{file}: {word} ({model(counts)})"


def evidence(file):
    return f"Its sheet of evidence: ./nutseason sheet {quote(file)} > OUT"


def unsafe(steps):
    if not steps:
        return "A start state breaks the property."
    return (f"A run of {counted(len(steps), 'step')} breaks the property, and "
            "no shorter run does.")


def lane(name, numbers):
    """Where the steps of a command are in a run."""
    if not numbers:
        return f"{name}: no step"
    if len(numbers) == 1:
        return f"{name}: 1 step, which is step {numbers[0]:,}"
    return (f"{name}: {counted(len(numbers), 'step')}, from step "
            f"{numbers[0]:,} to step {numbers[-1]:,}")


def reached(report):
    """How much of a table of one row is reached where the model is safe."""
    shared, row, _ = report.counts
    said = (f"Runs over a table of one row reach {report.total:,} of "
            f"{counted(1 << shared + row, 'state')}")
    if not shared:
        return (f"{said}. There are no shared names, so there is one setting, "
                "0:")
    names = "the shared name" if shared == 1 else "the shared names"
    return (f"{said}, at {len(report.settings):,} of {1 << shared:,} settings "
            f"of {names}:")


def search(taken):
    """What a search takes at most, and what of it is proved."""
    return (f"A search makes at most {counted(taken.trials, 'trial')}; a "
            "trial runs one command from one state with one choice word. "
            "That number is proved. Once the text is read, the search takes "
            f"at most {lasting(taken.nanoseconds)}. That is reckoned from "
            "what was measured on one machine, and is not proved.")


def lasting(nanoseconds):
    """A time with the unit that fits, rounded up."""
    if rounded_up(nanoseconds, MILLISECOND) < 1000:
        return f"{tenths(nanoseconds, MILLISECOND)} ms"
    said = tenths(nanoseconds, SECOND)
    return f"{said} second{'' if said == '1' else 's'}"


def tenths(nanoseconds, unit):
    """Below 10 of the unit in tenths, from there on in whole ones."""
    count = rounded_up(10 * nanoseconds, unit)
    if count < 100 and count % 10:
        return f"{count // 10}.{count % 10}"
    return f"{rounded_up(nanoseconds, unit):,}"


def contradiction(parts):
    """What is wrong with the parts of a `start` that nothing satisfies."""
    shared, row = (part.can_hold for part in parts)
    if shared and row:
        return ("Each part of `start` can be satisfied alone, but not both "
                "together:")
    if shared:
        return ("The `each` part of `start` is false in every row, whatever "
                "the values:")
    if row:
        return ("The shared part of `start` is false for every setting of "
                "the shared names:")
    return "Both parts of `start` are false, whatever the values:"


def can_hold(part):
    return "can be true" if part.can_hold else "never true"


def held(part):
    """How a part of `keep` stands, with the values that it looks at."""
    values = " ".join(f"{name}={bit}" for name, bit in part.values.items())
    return ("true" if part.holds else "false") + (values and f" with {values}")
