"""Compares reservations with those that are due, and searches that are lent
no more than what was reserved."""

from comparing.lending import beside, memory, noise
from evidence.calls import reserve_leaves, search_leaves
from reader.model import Refusal

# Behind what is lent there is more, to see that it stays.
ENTRIES = 6
LENT = range(ENTRIES)

# Where nothing is reserved: no buffers, and more than any model needs.
ANY_LENGTHS = (0, 0, 0), (4096, 4096, 40967)


def reserving(due):
    """The Reservation of a Found, or the Refusal."""
    return due if isinstance(due, Refusal) else due.reservation


def compare_reserve(rng, library, title, text, due, count, differences):
    """A call that is lent so many entries. A Reservation is due, or the
    text's Refusal."""
    entries = memory(rng, ENTRIES)
    expected = reserve_leaves(due, entries, count)
    said = library.reserve(text, entries, count)
    differences.met["reserve: " + kind_of(expected[0])] += 1
    differences.note(f"reserve, {count} entries: {title}", expected,
                     (said, entries))


def compare_search(rng, library, title, text, due, given, differences):
    """A call with buffers of the lengths given. A Found is due, or the
    text's Refusal."""
    lent = noise(rng, given)
    expected, *left = search_leaves(due, *lent)
    said = library.search(text, *lent)
    differences.met["search: " + kind_of(expected)
                    + of_stars(expected, text)] += 1
    differences.note(f"search, buffers of {given}: {title}",
                     beside(expected, left, lent), beside(said, lent, left))
    return said, lent


def kind_of(said):
    """The answer's first word, and of refusals that of a short buffer by
    itself."""
    return said.split()[0] + " 8" * (said == "refused 8 0")


def of_stars(said, text):
    """Safe searches by whether a command has several choice words."""
    if not said.startswith("safe "):
        return ""
    return ", stars" if b"*" in text else ", no stars"


def lengths_of(due):
    """What is reserved, and one less in each place."""
    if isinstance(due, Refusal):
        return ANY_LENGTHS
    entries, size, _ = due.reservation
    return ((entries, entries, size), (entries - 1, entries, size),
            (entries, entries - 1, size), (entries, entries, size - 1))


def compare_reserved(rng, library, title, text, due, differences):
    """Calls with buffers of these lengths."""
    for given in lengths_of(due):
        compare_search(rng, library, title, text, due, given, differences)


def compare_all(rng, library, title, text, due, differences):
    """Calls of both functions, with as few and as many as can be lent."""
    for count in LENT:
        compare_reserve(rng, library, title, text, reserving(due), count,
                        differences)
    compare_reserved(rng, library, title, text, due, differences)
