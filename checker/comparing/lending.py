"""Buffers to be lent, which hold noise, and where they differ afterwards."""

from itertools import zip_longest


def words(rng, count):
    """So many numbers of 16 bits."""
    return list(memoryview(rng.randbytes(2 * count)).cast("H"))


def like_states(rng, count, states):
    """So many numbers of 16 bits, about half of which a state may have."""
    return [number % states if number >> 15 else number
            for number in words(rng, count)]


def sheet_buffer(rng, size):
    return bytearray(rng.randbytes(size))


def noise(rng, given):
    """Two tables and a sheet buffer of these lengths."""
    first, second, size = given
    return words(rng, first), words(rng, second), sheet_buffer(rng, size)


def memory(rng, count):
    """So many numbers of 64 bits."""
    return [rng.getrandbits(64) for _ in range(count)]


def other_bytes(rng, count):
    """So many that are not 0: by xor, they make any byte another one."""
    return rng.randbytes(count).replace(b"\0", b"\x55")


def places_unlike(rng, steps, count, command):
    """So many places of a list, none of which has a byte of the step that may
    be put there. Behind the steps, every second place is like a step of that
    command."""
    noise = [(one, word, low + 256 * high) for one, word, low, high
             in zip(*[iter(other_bytes(rng, 4 * count))] * 4)]
    return ([(one ^ step[0], word ^ step[1], after ^ step[2])
             for (one, word, after), step in zip(noise, steps)]
            + [(one if place % 2 else command, word, after)
               for place, (one, word, after)
               in enumerate(noise[len(steps):])])


def counts_unlike(rng, counts, count):
    """So many entries, none of which has a byte of the count that may be put
    there, or 0 behind the counts."""
    noise = memoryview(other_bytes(rng, 2 * count)).cast("H")
    return [other ^ number for other, number
            in zip(noise, [*counts, *[0] * count])]


def first_unlike(buffer, other):
    """The first place where a buffer is unlike another, and what it has
    there; None where they are alike."""
    if buffer == other:
        return None
    return next((place, one) for place, (one, there)
                in enumerate(zip_longest(buffer, other)) if one != there)


def beside(said, buffers, others):
    """An answer, and of each buffer what tells it from another. Buffers are
    long, and most of them is alike."""
    return said, *map(first_unlike, buffers, others)
