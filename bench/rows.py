"""Rows of the tables that are written, and times in them."""


def shown(seconds):
    for unit, size in (("s", 1), ("ms", 1e-3), ("µs", 1e-6)):
        if seconds >= size:
            break
    return f"{seconds / size:.3g} {unit}"


def row(*cells):
    print("|", " | ".join(cells), "|")


def heading(*cells):
    row(*cells)
    print("|---" * len(cells) + "|")
