"""Places of a text for a person: line and column, and the line itself with
every byte made visible."""

from dataclasses import dataclass

# So many bytes of a line are shown before a place, and from it on.
BEFORE, FROM = 40, 60
ESCAPES = {9: "\\t", 13: "\\r"}


@dataclass(frozen=True)
class Excerpt:
    """A line around a token, cut where it is long."""

    before: str
    token: str
    after: str

    @property
    def line(self):
        return self.before + self.token + self.after

    @property
    def carets(self):
        return " " * len(self.before) + "^" * max(1, len(self.token))


def line_and_column(text, place):
    """Both count from 1, the column in bytes."""
    before = text[:place]
    return before.count(b"\n") + 1, place - before.rfind(b"\n")


def position(text, place):
    line, column = line_and_column(text, place)
    return f"{line}:{column}"


def visible(part):
    """Bytes of one line, each as itself or by an escape."""
    return "".join(chr(byte) if 32 <= byte < 127
                   else ESCAPES.get(byte, f"\\x{byte:02x}") for byte in part)


def excerpt(text, place, length):
    begin = text.rfind(b"\n", 0, place) + 1
    end = text.find(b"\n", place)
    end = len(text) if end < 0 else end
    first, last = max(begin, place - BEFORE), min(end, place + FROM)
    stop = min(place + length, last)
    return Excerpt("..." * (first > begin) + visible(text[first:place]),
                   visible(text[place:stop]),
                   visible(text[stop:last]) + "..." * (last < end))
