"""What a terminal shows of the bytes that come to it, as far as `nutseason` uses one: two screens, a cursor that is seen or not, bold characters,
and lines and places to clear. Anything else is a fault."""
import re

PIECE = re.compile(r"\x1b\[(?P<given>[?0-9;]*)(?P<what>[A-Za-z])|(?P<control>[\r\n])|(?P<text>[^\x00-\x1f\x7f]+)")
# What may still become a piece.
BEGUN = re.compile(r"\x1b(?:\[[?0-9;]*)?")


class Screen:
    def __init__(self, columns, rows):
        self.held, self.bold, self.cursor, self.second = b"", False, True, False
        self.kept = None
        self.resize(columns, rows)

    def resize(self, columns, rows):
        """Whoever draws has to do so anew."""
        self.columns, self.rows = columns, rows
        self.clear()

    def clear(self):
        self.cells = [[(" ", False)] * self.columns for _ in range(self.rows)]
        self.row = self.column = 0

    @property
    def lines(self):
        return ["".join(letter for letter, _ in row).rstrip() for row in self.cells]

    @property
    def bold_words(self):
        marked = "".join(letter if bold else " " for row in self.cells for letter, bold in row)
        return marked.split()

    def feed(self, data):
        self.held += data
        try:
            said, self.held = self.held.decode(), b""
        except UnicodeDecodeError as fault:
            said, self.held = self.held[:fault.start].decode(), self.held[fault.start:]
        at = 0
        while at < len(said) and not BEGUN.fullmatch(said, at):
            piece = PIECE.match(said, at)
            if not piece:
                raise ValueError(f"not a screen's: {said[at:at + 20]!r}")
            self.take(piece)
            at = piece.end()
        self.held = said[at:].encode() + self.held

    def take(self, piece):
        given, what = piece["given"], piece["what"]
        if piece["text"]:
            for letter in piece["text"]:
                self.put(letter)
        elif piece["control"] == "\r":
            self.column = 0
        elif piece["control"] == "\n":
            self.down()
        elif (given, what) == ("?1049", "h"):
            self.kept, self.second = (self.cells, self.row, self.column), True
            self.clear()
        elif (given, what) == ("?1049", "l"):
            (self.cells, self.row, self.column), self.second = self.kept, False
        elif given == "?25":
            self.cursor = what == "h"
        elif (given, what) == ("", "H"):
            self.row = self.column = 0
        elif (given, what) == ("2", "K"):
            self.cells[self.row] = [(" ", False)] * self.columns
        elif what == "m":
            self.bold = {"": False, "1": True}[given]
        else:
            raise ValueError(f"not a screen's: {piece[0]!r}")

    def put(self, letter):
        """Behind the last column the next line begins."""
        if self.column == self.columns:
            self.column = 0
            self.down()
        self.cells[self.row][self.column] = letter, self.bold
        self.column += 1

    def down(self):
        if self.row + 1 < self.rows:
            self.row += 1
        else:
            self.cells = self.cells[1:] + [[(" ", False)] * self.columns]
