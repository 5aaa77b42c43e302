"""Pieces from which model texts are put together."""

LONG = "abcdefghijklmnop"   # the longest word allowed
TOO_LONG = LONG + "q"
SKIPPING = "command c if 1 do skip else skip."


def command(name="c", test="1", yes="skip", no="skip"):
    return f"command {name} if {test} do {yes} else {no}."


def loop(condition="1", yes="skip", no="skip"):
    return f"for {condition} do {yes} else {no} end"


def model(shared="a b", row="x y", start=("1", "1"), keep=("1", "1"),
          commands=(SKIPPING,)):
    """A whole text, on one line, with single blanks."""
    return (f"shared {shared}. row {row}. "
            f"start {start[0]} each {start[1]}. "
            f"keep {keep[0]} each {keep[1]}. " + " ".join(commands))


def numbered(stem, count):
    """That many names, told apart by a number."""
    return " ".join(f"{stem}{j}" for j in range(count))


def list_of(item, count):
    """That many equal items."""
    return ";".join([item] * count)


def assigned(target, values):
    """An item for each value, all with one target."""
    return ";".join(f"{target}:={value}" for value in values)


def expression(nodes, operand="1", operator="and"):
    """An expression of exactly that many nodes, ending in an operand."""
    head = "not " if nodes % 2 == 0 else ""
    return head + f" {operator} ".join([operand] * ((nodes + 1) // 2))


def stars(count):
    return " or ".join(["*"] * count)


def refused_at(detail, number, text):
    """A label and the text, which is refused where the mark ^ stands."""
    place = text.index("^")
    return (f"{detail} -> refused {number} {place}",
            text.replace("^", "", 1))


def nested(opening, closing, depth, core="1"):
    return opening * depth + core + closing * depth
