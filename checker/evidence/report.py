"""The report of a text, and the sheet that its search writes."""

from evidence.one_row import OneRow
from evidence.searching import search
from evidence.sheets import map_sheet, trace_sheet
from reader.model import Refusal, Shared
from reader.reading import read


def verdict(table, found):
    """A model is void by its start states alone, whatever its runs do."""
    if not table.can_start():
        return "void"
    return "unsafe" if isinstance(found, tuple) else "safe"


def setting(table, state):
    """The number that the shared names give a state, name by name."""
    return sum(2 ** j for j in range(table.shared)
               if table.value(Shared(j), state, 0))


def count_lines(table, members):
    """How many members there are, and how many at each setting that one of
    them has, from the lowest setting up."""
    settings = [setting(table, state) for state in members]
    return [f"states {len(settings)}"] + [
        f"at {number} {settings.count(number)}"
        for number in sorted(set(settings))]


def report_lines(text):
    model = read(text)
    if isinstance(model, Refusal):
        return [f"refused {model.number} {model.place}"]
    table = OneRow(model)
    found = search(table)
    said = verdict(table, found)
    lines = [f"model {len(model.shared)} {len(model.row)} "
             f"{len(model.commands)}"]
    if said == "void":
        return lines + [said]
    if said == "safe":
        return lines + [said, *count_lines(table, found)]
    start, steps = found
    lines += [f"unsafe {len(steps)}", f"start {start}"]
    for number, (command, word, after) in enumerate(steps, 1):
        name = model.commands[command].name.word
        lines.append(f"step {number} {name} {word} {after}")
    return lines


def report(text):
    return "".join(line + "\n" for line in report_lines(text))


def searched_in(table):
    """The verdict and the sheet's bytes."""
    found = search(table)
    return verdict(table, found), found_sheet(table, found)


def searched(text):
    """The same of a text's model, or the text's Refusal."""
    model = read(text)
    return model if isinstance(model, Refusal) else searched_in(OneRow(model))


def found_sheet(table, found):
    """The sheet of what the search found."""
    if isinstance(found, set):
        return map_sheet(table, found)
    return trace_sheet(table, *found)


def sheet(text):
    """The sheet's bytes, or the text's Refusal."""
    said = searched(text)
    return said if isinstance(said, Refusal) else said[1]
