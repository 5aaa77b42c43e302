"""Bursts of traces that are about as long as the widest stretch, and of those
that fill a sheet."""

from corpora.bursts_labels import burst, counting, listing, too_few
from corpora.bursts_traces import LETTERS, MOST_STEPS, long_trace, trace
from corpora.bursts_widths import one_block

# Steps before, in and behind a burst.
BLOCKS = (
    (0, 4094, 0), (0, 4095, 0), (0, 4096, 0), (0, MOST_STEPS, 0),
    (4093, 1, 0), (4094, 1, 0), (4095, 1, 0), (MOST_STEPS - 1, 1, 0),
    (0, 1, MOST_STEPS - 1), (1, 4095, 0), (2456, 4095, 0), (0, 4095, 2456),
    (2455, 4095, 1), (2455, 4096, 0), (256, 256, 3584), (300, 300, 5951),
    (4096, 255, 2200), (4100, 2000, 451),
)


def long_bursts():
    for before, block, behind in BLOCKS:
        letters = "b" * before + "a" * block + "b" * behind
        for width in sorted({1, 256, block, 2048, 4094, 4095}
                            & set(range(1, 4096))):
            yield burst(f"{before}, {block} and {behind} steps",
                        long_trace(letters), len(letters) + 1, 0, width,
                        one_block(before, block, behind, width))


def widest_stretches():
    """Where the widest stretch is as long as the trace, or one step off."""
    for count in (4094, 4095, 4096, 4097):
        for detail, letters, times in (
                ("the first alone", "a" + "b" * (count - 1),
                 {4093: "1 1", 4094: "1 1", 4095: "1 1"}),
                ("the last alone", "b" * (count - 1) + "a",
                 {width: f"1 {max(count - width, 0) + 1}"
                  for width in (4093, 4094, 4095)}),
                ("both ends", "a" + "b" * (count - 2) + "a",
                 {width: f"{2 if width >= count else 1} 1"
                  for width in (4093, 4094, 4095)})):
            for width, said in times.items():
                yield burst(f"{count} steps, {detail}", long_trace(letters),
                            count, 0, width, f"burst {said}")


def most_steps():
    """In turn; and two bursts of one length, far from each other."""
    turns = trace("ab" * 3275 + "a")
    for width, odd, even in (
            (1, "1 1", "1 2"), (2, "1 1", "1 1"), (3, "2 1", "2 2"),
            (255, "128 1", "128 2"), (511, "256 1", "256 2"),
            (4094, "2047 1", "2047 1"), (4095, "2048 1", "2048 2")):
        yield burst("in turn", turns, MOST_STEPS, 0, width, f"burst {odd}")
        yield burst("in turn", turns, MOST_STEPS, 1, width, f"burst {even}")
    apart = "b" * 10 + "a" * 300 + "b" * 5000 + "a" * 300 + "b" * 941
    for width, said in ((1, "1 11"), (300, "300 11"), (301, "300 10"),
                        (310, "300 1"), (311, "300 1"), (4095, "300 1")):
        yield burst("two bursts", long_trace(apart), MOST_STEPS + 2, 0, width,
                    f"burst {said}")
    second = "b" * 10 + "a" * 299 + "b" * 5000 + "a" * 300 + "b" * 942
    for width, said in ((299, "299 11"), (300, "300 5310"),
                        (301, "300 5309"), (4095, "300 1515")):
        yield burst("the second longer", trace(second), MOST_STEPS, 0, width,
                    f"burst {said}")


def long_lists():
    """All commands in turn; the list just suffices, has more places, or
    fewer."""
    for count in (255, 256, 257, 4095, 4096, MOST_STEPS):
        pair = trace((LETTERS * 410)[:count], 16)
        each, more = divmod(count, 16)
        counts = " ".join(str(each + (number < more)) for number in range(16))
        for places in (count, count + 1, count + 300):
            yield listing(f"{count} steps", pair, places, f"steps {count}")
            yield counting(f"{count} steps", pair, places, 16,
                           f"steps {count}, counts {counts}")
        for places in (0, 1, count - 255, count - 1):
            yield from too_few(f"{count} steps", pair, places)


def longer_than_any_trace():
    """Numbers of places that would be small if bits were lost."""
    for letters in ("", "ab"):
        count = len(letters)
        counts = "0 0" if not letters else "1 1"
        for places in (256, 4096, 65535, 65536, 65537):
            pair = trace(letters, 2)
            yield listing(f"{count} steps", pair, places, f"steps {count}")
            yield burst(f"{count} steps", pair, places, 1, 1,
                        f"burst {min(count, 1)} {max(count, 1)}")
            yield counting(f"{count} steps", pair, places, 16,
                           f"steps {count}, counts {counts}")


def counts_of_two_bytes():
    for one, other in ((256, 0), (0, 256), (255, 257), (300, 6251),
                       (6251, 300), (3275, 3276), (MOST_STEPS, 0),
                       (0, MOST_STEPS)):
        yield counting(f"{one} and {other}",
                       long_trace("a" * one + "b" * other), one + other, 16,
                       f"steps {one + other}, counts {one} {other}")


GROUPS = (long_bursts, widest_stretches, most_steps, long_lists,
          longer_than_any_trace, counts_of_two_bytes)
