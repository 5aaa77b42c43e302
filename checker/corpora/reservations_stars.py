"""Models by the number of their commands and by the stars of each."""

from corpora.pairs_models import starred
from corpora.reports_settings import these
from corpora.values_bits import ALONE
from corpora.values_places import CLAUSES, PLACES, one_command
from inputs.phrases import model

# Stars, the trials reserved at 4 states, the trials made at 3 of them.
ONE_COMMAND = ((0, 4, 3), (1, 8, 6), (2, 16, 12), (3, 32, 24), (4, 64, 48),
               (5, 128, 96), (6, 256, 192), (7, 512, 384), (8, 1024, 768))


def one_command_of_stars():
    for count, most, made in ONE_COMMAND:
        yield (f"{count} -> 4 47 {most}, safe {made}",
               these(1, 1, (0, 1, 2), starred((count,))))


def where_stars_stand():
    """Eight stars, so that 256 words are tried at each of 16 states."""
    for detail, one in ALONE:
        yield f"{detail} -> 16 167 4096, safe 4096", model(commands=[one])


def a_star_in_one_place():
    """Outside `for` and inside, also where no step reads it: 2 words are
    tried at each of 16 states, and beside a command with a star in every
    other place 2 + 256."""
    for place, name in enumerate(PLACES[CLAUSES:]):
        said = ["1"] * 9
        said[place] = "*"
        one = one_command("c", *said)
        yield f"{name} -> 16 167 32, safe 32", model(commands=[one])
        others = one_command("d", *("*" if at != place else "0"
                                    for at in range(9)))
        yield (f"{name}, and all others -> 16 167 4128, safe 4128",
               model(commands=[one, others]))


# Commands without a star, the trials reserved at 4 states, made at 2.
MANY_COMMANDS = ((1, 4, 2), (2, 8, 4), (3, 12, 6), (4, 16, 8), (7, 28, 14),
                 (8, 32, 16), (14, 56, 28), (15, 60, 30), (16, 64, 32))


def commands_without_stars():
    for count, most, made in MANY_COMMANDS:
        yield (f"{count} -> 4 47 {most}, safe {made}",
               these(1, 1, (0, 3), starred([0] * count)))


# The stars of each command, the words tried at a state, added up, then the
# trials reserved at 8 states and those made at 3 of them.
UNEQUAL = (
    ((0, 1), "1 + 2 = 3", 24, 9),
    ((1, 0), "2 + 1 = 3", 24, 9),
    ((1, 1), "2 + 2 = 4", 32, 12),
    ((2, 1), "4 + 2 = 6", 48, 18),
    ((1, 2), "2 + 4 = 6", 48, 18),
    ((3, 3), "8 + 8 = 16", 128, 48),
    ((0, 8), "1 + 256 = 257", 2056, 771),
    ((8, 0), "256 + 1 = 257", 2056, 771),
    ((8, 8), "256 + 256 = 512", 4096, 1536),
    ((5, 6), "32 + 64 = 96", 768, 288),
    ((7, 6), "128 + 64 = 192", 1536, 576),
    ((1, 2, 3), "2 + 4 + 8 = 14", 112, 42),
    ((3, 1, 2), "8 + 2 + 4 = 14", 112, 42),
    ((2, 3, 1), "4 + 8 + 2 = 14", 112, 42),
    ((0, 4, 0), "1 + 16 + 1 = 18", 144, 54),
    ((4, 0, 4), "16 + 1 + 16 = 33", 264, 99),
    ((2, 2, 2, 2, 2), "5 * 4 = 20", 160, 60),
    ((0, 1, 2, 3, 4, 5, 6, 7, 8), "512 - 1 = 511", 4088, 1533),
    ((8, 7, 6, 5, 4, 3, 2, 1, 0), "512 - 1 = 511", 4088, 1533),
    ((1,) * 16, "16 * 2 = 32", 256, 96),
    ((0, 1) * 8, "8 * 3 = 24", 192, 72),
    ((3,) + (0,) * 15, "8 + 15 = 23", 184, 69),
    ((0,) * 7 + (3,) + (0,) * 8, "7 + 8 + 8 = 23", 184, 69),
    ((0,) * 15 + (3,), "15 + 8 = 23", 184, 69),
    ((4,) * 15 + (0,), "15 * 16 + 1 = 241", 1928, 723),
    ((0,) + (4,) * 15, "1 + 15 * 16 = 241", 1928, 723),
    ((0, 1, 2, 3, 4, 5, 6, 7) * 2, "2 * 255 = 510", 4080, 1530),
)


def unequal_commands():
    for counts, words, most, made in UNEQUAL:
        yield (f"{counts}, {words} -> 8 87 {most}, safe {made}",
               these(1, 2, (1, 4, 6), starred(counts)))


GROUPS = (one_command_of_stars, where_stars_stand, a_star_in_one_place,
          commands_without_stars, unequal_commands)
