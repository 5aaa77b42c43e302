"""An explanation as plain text, in lines."""

import sentences
from places import position
from refusals import explained
from runs import judged, lines_of
from settings import setting_lines
from starts import tried
from tokens import quoted

CHANGE = ">"
MARK, LONGEST_BAR = "#", 24


def refused(file, text, report):
    said = explained(text, report)
    lines = [sentences.refused(file, report.number, said)]
    if said.excerpt:
        lines += [said.excerpt.line, said.excerpt.carets]
    return lines + [said.rule]


def safe(file, text, report, model, search):
    lines = setting_lines(report, model, LONGEST_BAR)
    return [f"{sentences.verdict(file, 'safe', report.counts)}. "
            f"{sentences.SAFE} {sentences.evidence(file)}",
            "", sentences.reached(report), "", *settings_table(lines, model),
            "", sentences.search(search)]


def void(file, text, report, model, search):
    parts = tried(model)
    return [f"{sentences.verdict(file, 'void', report.counts)}. "
            f"{sentences.VOID} {sentences.evidence(file)}",
            "", sentences.contradiction(parts),
            *clause(model.start, parts, sentences.can_hold),
            "", sentences.search(search)]


def unsafe(file, text, report, model, search):
    lines = lines_of(report, model)
    return [f"{sentences.verdict(file, 'unsafe', report.counts)}. "
            f"{sentences.unsafe(report.steps)}",
            "", *table(lines, model), *notes(text, lines, model),
            "", sentences.BREAKS,
            *kept(lines[-1].after, model),
            "", sentences.COPIES, "", sentences.search(search)]


def settings_table(lines, model):
    """Blocks side by side: settings, shared names if there are any, how many
    states."""
    numbers = right(["setting"] + [str(line.number) for line in lines])
    names = ["shared names"] + [line.names for line in lines]
    states = right(["states"] + [f"{line.states:,}" for line in lines])
    shares = right(["share"] + [line.share for line in lines])
    bars = [""] + [MARK * line.bar for line in lines]
    blocks = [numbers, columns(zip(states, shares, bars))]
    if model.shared:
        blocks.insert(1, alike(names))
    return beside(*blocks)


def table(lines, model):
    """Three blocks side by side: what ran, shared names, row names."""
    numbers = right(["step"] + [str(line.number) for line in lines])
    commands = ["command"] + [line.command for line in lines]
    choices = ["choices"] + [line.choices for line in lines]
    cells = [list(model.names)] + [list(map(cell, line.before, line.after))
                                   for line in lines]
    end = len(model.shared)
    blocks = [block("", zip(numbers, commands, choices))]
    if model.shared:
        blocks.append(block("shared", [row[:end] for row in cells]))
    if model.row:
        blocks.append(block("row", [row[end:] for row in cells]))
    return beside(*blocks)


def cell(before, after):
    return str(after) if before == after else f"{before}{CHANGE}{after}"


def right(column):
    """Equally wide cells, with blanks in front."""
    width = max(map(len, column))
    return [said.rjust(width) for said in column]


def beside(*blocks):
    return [" | ".join(row).rstrip() for row in zip(*blocks)]


def block(title, rows):
    """Equally wide lines: the title, and the rows in columns."""
    return alike([title] + columns(rows))


def alike(lines):
    width = max(map(len, lines))
    return [line.ljust(width) for line in lines]


def columns(rows):
    rows = [list(row) for row in rows]
    widths = [max(map(len, column)) for column in zip(*rows)]
    return ["  ".join(map(str.ljust, row, widths)).rstrip() for row in rows]


def notes(text, lines, model):
    """How changes are marked, and which star is which, where there are any."""
    said = ["", sentences.CHANGES.format(CHANGE)] if lines[1:] else []
    legend = stars(text, lines, model)
    return said + (["", sentences.STARS] + legend if legend else [])


def stars(text, lines, model):
    """The stars of the commands that run, each with what it stands in."""
    names = {line.command for line in lines}
    return columns([[f"  {command.name}", f"*{star.number}",
                     position(text, star.place), star.within]
                    for command in model.commands if command.name in names
                    for star in command.stars])


def kept(state, model):
    """How `keep` and its parts stand in a state."""
    return clause(model.keep, judged(state, model), sentences.held)


def clause(said, parts, how):
    """A clause of the text, and below it how each of its parts stands."""
    return [f"  {quoted(said.whole)}",
            *columns([[f"  {part.part}", part.quote, how(part)]
                      for part in parts])]
