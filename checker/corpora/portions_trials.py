"""Searches in portions by how many trials they make, to the most that there
can be."""

from corpora.pairs_models import idle, starred, under
from corpora.portions_labels import ALL, walk, walks
from corpora.reports_runs import counter
from corpora.reports_settings import resting, these

# The stars of each command, the words tried at a state.
UNEQUAL = (((0,), 1), ((3,), 8), ((0, 1), 3), ((1, 0), 3), ((2, 3, 1), 14),
           ((0, 4, 0), 18), ((8,), 256), ((7, 6), 192), ((1,) * 16, 32),
           ((0,) * 15 + (3,), 23), ((8, 8), 512))


def words_of_commands():
    """States 1, 4 and 6 of 8 start and stay."""
    for counts, words in UNEQUAL:
        yield from walks(
            f"{counts}", these(1, 2, (1, 4, 6), starred(counts)),
            ((), (1, 1, 1), (2, 1), (ALL, 1)), "1 4 6",
            [f"paused {done} 3 {done * words}" for done in range(3)]
            + [f"ended 3 3 {3 * words}"], f"safe 16 {3 * words}")


def many_words():
    """4,096 words at a state."""
    yield from walks(
        "16 commands of 8 stars", these(8, 4, (0, 1, 2048), idle(16)),
        ((1, 1, 1), (2,)), "0 1 2048",
        ("paused 0 3 0", "paused 1 3 4096", "paused 2 3 8192",
         "ended 3 3 12288"), "safe 527 12288")
    up = counter(4, 4, test=under(255))
    yield walk("up under one of 256 words", up, (128, 127, 1), "0 1-255<",
               "paused 0 1 0", "paused 128 129 32768",
               "paused 255 256 65280", "ended 256 256 65536",
               "safe 47 65536")


def most_trials():
    """Every state of 4,096 starts, with 4,096 words at each."""
    yield walk("every state", resting(8, 4, "1", idle(16)),
               (0, 15, 1, 2032, 2047, 1), "0-4095", "paused 0 4096 0",
               "paused 0 4096 0", "paused 15 4096 61440",
               "paused 16 4096 65536", "paused 2048 4096 8388608",
               "paused 4095 4096 16773120", "ended 4096 4096 16777216",
               "safe 527 16777216")


GROUPS = words_of_commands, many_words, most_trials
