"""A text on a page: numbered lines in which pieces are marked."""

from html import escape

from places import visible

TEXT_ENDS = "<mark>(the text ends here)</mark>"


def text_section(text, marks):
    """The text with line numbers and marked pieces, which do not overlap."""
    pieces, at = [], 0
    for start, end, tag, attributes in marks:
        pieces += [plain(text[at:start]),
                   marked(text[start:end], tag, attributes)]
        at = end
    lines = ("".join(pieces) + plain(text[at:])).split("\n")
    if len(lines) > 1 and not lines[-1]:
        lines.pop()
    items = "\n".join(f"<li>{line}</li>" for line in lines)
    return ("<section>\n<h2>Model text</h2>\n"
            '<ol class="text" tabindex="0" aria-label="Model text">\n'
            f"{items}\n</ol>\n</section>")


def plain(piece):
    return "\n".join(escape(visible(line)) for line in piece.split(b"\n"))


def marked(piece, tag, attributes):
    """A mark ends with its line and begins anew with the next."""
    if not piece:
        return TEXT_ENDS
    return "\n".join(f"<{tag}{attributes}>{line}</{tag}>" if line else ""
                     for line in plain(piece).split("\n"))


def command_marks(model):
    """Every command in pieces: its stars, and what stands between them."""
    marks = []
    for command in model.commands:
        at, attributes = command.place, f' data-command="{command.name}"'
        for star in command.stars:
            marks += [(at, star.place, "span", attributes),
                      (star.place, star.place + 1, "span",
                       f'{attributes} class="star" data-star="{star.number}"')]
            at = star.place + 1
        marks.append((at, command.end, "span", attributes))
    return marks
