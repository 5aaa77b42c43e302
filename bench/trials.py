"""How many trials a search makes that finds a model safe, and how many batches
there are at most. A trial is a step that is tried: a state, a command and one
of its choice words; a batch has up to so many of these words at once."""

from reading import read


def stars(given):
    return [command.stars for command in read(given.text.encode()).commands]


def members(given):
    """Of the map, whose bytes begin behind the head of its record."""
    return sum(byte.bit_count() for byte in given.sheet[15:])


def trials(given):
    return members(given) * sum(1 << count for count in stars(given))


def states(given):
    """By the counts in the sheet's header."""
    shared, row = given.sheet[6:8]
    return 1 << shared + row


def batches(given, words):
    """At all states, whether or not they are reached."""
    return states(given) * sum(-(-(1 << count) // words)
                               for count in stars(given))
