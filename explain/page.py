"""An explanation as one page that needs no other file and no network."""

import re
from html import escape
from pathlib import Path
from string import Template

import sentences
from page_text import command_marks, text_section
from refusals import explained
from runs import judged, lines_of
from settings import setting_lines
from starts import tried
from strip import has_strip, lanes, scale
from tokens import quoted

FOLDER = Path(__file__).resolve().parent
CHANGE = "→"
# A bar's length is told in percent of the longest.
LONGEST_BAR = 100


def refused(file, text, report):
    said = explained(text, report)
    main = f"<p>{coded(said.rule)}</p>"
    if said.excerpt:
        lines = f"{said.excerpt.line}\n{said.excerpt.carets}"
        mark = (said.place, said.place + said.length, "mark", "")
        # A newline that begins a `pre` is not shown, so one is given away.
        main = (f"<section>\n<pre>\n{escape(lines)}</pre>\n{main}\n"
                "</section>\n" + text_section(text, [mark]))
    return whole(f"{file}: refused {report.number}",
                 sentences.refused(file, report.number, said), main)


def safe(file, text, report, model, search):
    main = [f"<p>{escape(sentences.evidence(file))}</p>",
            settings_section(report, model), search_section(search),
            text_section(text, command_marks(model))]
    return whole(sentences.verdict(file, "safe", report.counts),
                 sentences.SAFE, "\n".join(main))


def void(file, text, report, model, search):
    parts = tried(model)
    first, *_, last = model.start.whole
    mark = (first.place, last.end, "mark", "")
    main = [f"<p>{escape(sentences.evidence(file))}</p>",
            clause_section("Why nothing starts",
                           sentences.contradiction(parts), model.start,
                           parts, sentences.can_hold),
            search_section(search),
            text_section(text, [mark, *command_marks(model)])]
    return whole(sentences.verdict(file, "void", report.counts),
                 sentences.VOID, "\n".join(main))


def unsafe(file, text, report, model, search):
    lines = lines_of(report, model)
    main = [player(text, lines, model), steps_section(lines, model),
            clause_section("What breaks", sentences.BREAKS, model.keep,
                           judged(lines[-1].after, model), sentences.held,
                           sentences.COPIES),
            search_section(search)]
    script, style = part("page.js"), ""
    if has_strip(lines):
        main.insert(1, strip_section(lines, model))
        script, style = script + part("strip.js"), part("strip.css")
    main.append(f"<script>\n{script}</script>")
    return whole(sentences.verdict(file, "unsafe", report.counts),
                 sentences.unsafe(report.steps), "\n".join(main), style)


def part(name):
    return (FOLDER / name).read_text(encoding="utf-8")


def whole(title, summary, main, more_style=""):
    return Template(part("page.html")).substitute(
        title=escape(title), style=part("page.css") + more_style,
        summary=coded(summary), main=main)


def coded(sentence):
    """A sentence in which what stands between backticks is code."""
    return re.sub("`([^`]+)`", r"<code>\1</code>", escape(sentence))


def kinds(model):
    return ["shared"] * len(model.shared) + ["row"] * len(model.row)


def player(text, lines, model):
    """The text, and around it what stays hidden without the script."""
    names = "\n".join(
        f"<tr><th>{name}</th><td>{kind}</td><td></td><td></td><td></td></tr>"
        for name, kind in zip(model.names, kinds(model)))
    return Template(part("player.html")).substitute(
        last=len(lines) - 1, names=names,
        text=text_section(text, command_marks(model)))


def settings_section(report, model):
    lines = setting_lines(report, model, LONGEST_BAR)
    names = '<th scope="col">shared names</th>' if model.shared else ""
    return Template(part("settings.html")).substitute(
        title=sentences.reached(report), names=names,
        rows="\n".join(map(setting_row, lines)))


def setting_row(line):
    """The bar says nothing that the cells before it do not say. No `not` is
    parted from its name."""
    names = line.names.replace("not ", "not&nbsp;")
    words = f'<td class="names">{names}</td>' if names else ""
    return (f'<tr><th>{line.number}</th>{words}'
            f'<td>{line.states:,}</td><td>{escape(line.share)}</td><td>'
            f'<svg aria-hidden="true"><rect width="{line.bar}%" height="100%"/>'
            '</svg></td></tr>')


def strip_section(lines, model):
    last = len(lines) - 1
    return Template(part("strip.html")).substitute(
        last=last, steps=sentences.counted(last, "step"), scale=scale(last),
        rows="\n".join(lanes(lines, model)))


def steps_section(lines, model):
    groups = "".join(
        f'<th colspan="{len(names)}" scope="colgroup">{kind}</th>'
        for kind, names in (("shared", model.shared), ("row", model.row))
        if names)
    names = "".join(f'<th scope="col">{name}</th>' for name in model.names)
    return Template(part("steps.html")).substitute(
        groups=groups, names=names, rows="\n".join(map(step_row, lines)),
        notes=notes(lines))


def notes(lines):
    """How changes are marked and stars numbered, where there are any."""
    said = [sentences.CHANGES.format(CHANGE)] if lines[1:] else []
    said += [sentences.STARS] if any(line.choices for line in lines) else []
    return "\n".join(f"<p>{note}</p>" for note in said)


def step_row(line):
    cells = "".join(map(cell, line.before, line.after))
    return (f"<tr><th>{line.number}</th><td>{line.command}</td>"
            f"<td>{line.choices}</td>{cells}</tr>")


def cell(before, after):
    if before == after:
        return f"<td>{after}</td>"
    return f"<td><b>{before}{CHANGE}{after}</b></td>"


def search_section(search):
    return ("<section>\n<h2>What a search takes</h2>\n"
            f"<p>{coded(sentences.search(search))}</p>\n</section>")


def clause_section(heading, title, clause, sides, how, note=""):
    """A clause of the text, and below it how each of its parts stands."""
    rows = "\n".join(
        f"<tr><th>{side.part}</th><td>{side.quote}</td>"
        f"<td>{how(side)}</td></tr>" for side in sides)
    return Template(part("clause.html")).substitute(
        heading=heading, title=coded(title), clause=quoted(clause.whole),
        rows=rows, note=f"<p>{note}</p>" if note else "")
