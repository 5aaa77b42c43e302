"""Commands that a model does not have, widths out of range, and which of the
refusals comes first."""

from corpora.bursts_labels import burst
from corpora.bursts_traces import LETTERS, long_trace, trace
from corpora.player_walks import THREE_STEPS, THREE_STEPS_SHEET
from inputs.cases import G, G_CASES, G_SHEET

LARGEST = (1 << 64) - 1
# What a number would lose if it were kept in so many bits.
LOST = tuple(1 << bits for bits in (8, 12, 16, 24, 32, 40, 48, 56, 62, 63))

# What is shown, text and sheet, how many steps and commands.
TRACES = (
    ("G's own", (G, G_SHEET), 1, 1),
    ("names in other cases", (G_CASES, G_SHEET), 1, 1),
    ("two commands, three steps", (THREE_STEPS, THREE_STEPS_SHEET), 3, 2),
    ("no steps", trace("", 2), 0, 2),
    ("three commands", trace("abcab"), 5, 3),
    ("15 commands", trace("aaa", 15), 3, 15),
    ("all sixteen", trace(LETTERS), 16, 16),
)

WIDTHS = (0, 4096, 4097, 5000, 6551, 6552, 8191, 8192, 32768, 65535, LARGEST,
          LARGEST - 4095, (1 << 63) - 1,
          *(lost + width for lost in LOST[2:] for width in (0, 1, 2)))


def other_commands(commands):
    """The next, and those that would be known if bits were lost."""
    return sorted({commands, commands + 1, 16, 17, 31, 32, 64, 127, 128, 255,
                   LARGEST, LARGEST - 15,
                   *(lost + number for lost in LOST
                     for number in (0, commands - 1))})


def unknown_commands():
    for detail, pair, count, commands in TRACES:
        for command in other_commands(commands):
            for width in (1, 4095):
                yield burst(detail, pair, count + 1, command, width,
                            "refused 10 0")


def every_command_of_fewer():
    """Below sixteen, up to the last one that the model has."""
    for commands in (1, 2, 3, 7, 8, 15):
        pair = trace("a" * 4, commands)
        for command in range(16):
            times = "2 1" if command == 0 else "0 1"
            yield burst(f"{commands} commands", pair, 4, command, 2,
                        f"burst {times}" if command < commands
                        else "refused 10 0")


def widths_out_of_range():
    """On traces that are shorter, and on some that are longer."""
    for detail, pair, count, commands in TRACES:
        for width in WIDTHS:
            for command in {0, commands - 1}:
                yield burst(detail, pair, count + 1, command, width,
                            "refused 16 0")
    for count in (4095, 4096, 4097, 6551):
        for width in (0, 4096, 4097, count, count + 1, 65536 + 4095):
            if width != 4095:
                yield burst(f"{count} steps", long_trace("b" * count), count,
                            0, width, "refused 16 0")


def command_before_width():
    for detail, pair, count, commands in TRACES:
        for command in (commands, 16, 256, 1 << 32, LARGEST):
            for width in (0, 4096, 65537, (1 << 32) + 1, 1 << 63, LARGEST):
                yield burst(detail, pair, count, command, width,
                            "refused 10 0")


def places_before_numbers():
    for detail, pair, count, commands in TRACES:
        for places in sorted({0, count - 1} - {count, -1}):
            for command in (0, commands, 256, LARGEST):
                for width in (0, 1, 4095, 4096, 65537, 1 << 63, LARGEST):
                    yield burst(detail, pair, places, command, width,
                                "refused 8 0")


def longer_lists():
    """What stands in a list stays, however many places there are."""
    for detail, pair, count, commands in TRACES:
        for places in (count, count + 2, count + 60):
            yield burst(detail, pair, places, commands, 1, "refused 10 0")
            yield burst(detail, pair, places, 0, 0, "refused 16 0")
            yield burst(detail, pair, places, 0, 4096, "refused 16 0")


GROUPS = (unknown_commands, every_command_of_fewer, widths_out_of_range,
          command_before_width, places_before_numbers, longer_lists)
