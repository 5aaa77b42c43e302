"""Pages: that they are well formed, self-contained, escape what a text holds,
and have the steps or the settings of the report in their tables."""

import re
import unittest
from html.parser import HTMLParser

import page
import plain
from explaining import explained_by
from sentences import BREAKS
from stored import all_settings, cases, counter
from traces import Safe, Unsafe, report_of

EMPTY = {"meta", "input"}
ENDS = "(the text ends here)"
LOADING = {"src", "href", "action", "data", "srcset", "poster"}
TABLES = ("scroll steps", "scroll settings")


class Page(HTMLParser):
    """The tags with their attributes, what is read outside scripts and
    styles, the lines of the text, its spans, and the rows of the table of
    steps or settings."""

    def __init__(self, said):
        super().__init__()
        self.open, self.tags = [], []
        self.read, self.lines, self.rows, self.spans = "", [], [], []
        self.feed(said)
        self.close()
        assert not self.open, self.open

    def inside(self, *what):
        return any(one in pair for pair in self.open for one in what)

    def handle_starttag(self, tag, attributes):
        attributes = dict(attributes)
        self.tags.append((tag, attributes))
        if tag not in EMPTY:
            self.open.append((tag, attributes.get("class")))
        if tag == "li":
            self.lines.append("")
        if tag == "span":
            self.spans.append((attributes, ""))
        if self.inside(*TABLES):
            if tag == "tr":
                self.rows.append([])
            elif tag in ("th", "td"):
                self.rows[-1].append("")

    def handle_endtag(self, tag):
        assert self.open.pop()[0] == tag, tag

    def handle_data(self, data):
        if self.inside("script") or self.inside("style"):
            return
        self.read += data
        if self.inside("li"):
            self.lines[-1] += data
        if self.inside("span"):
            self.spans[-1] = (self.spans[-1][0], self.spans[-1][1] + data)
        if self.inside(*TABLES) and self.inside("tr"):
            self.rows[-1][-1] += data


def page_of(text, report, reservation=None):
    return explained_by(page, "FILE", text, report_of(report), reservation)


def steps_of(rows):
    """Number, command, choice word and state after of each row."""
    for number, name, choices, *cells in rows:
        chosen = [choice.split("=") for choice in choices.split()]
        assert [star for star, _ in chosen] == [
            f"*{j}" for j in range(1, len(chosen) + 1)]
        yield (int(number), name,
               sum(int(bit) << j for j, (_, bit) in enumerate(chosen)),
               sum(int(cell[-1]) << j for j, cell in enumerate(cells)))


class Pages(unittest.TestCase):
    def test_every_case(self):
        for case in cases():
            with self.subTest(case.name):
                said = page_of(*case.said)
                self.stands_alone(said)
                self.says(Page(said), case)

    def stands_alone(self, said):
        found = Page(said)
        names = [name for _, attributes in found.tags for name in attributes]
        self.assertFalse(LOADING & set(names))
        self.assertFalse([name for name in names if name.startswith("on")])
        for outside in ("://", "@import", "url(", "fetch(", "import("):
            self.assertNotIn(outside, said)

    def says(self, found, case):
        """The page has the sentences of the plain explanation, and a script
        only where there is something to step through."""
        first, *rest = case.plain.replace("`", "").splitlines()
        report = report_of(case.report)
        unsafe = isinstance(report, Unsafe)
        if unsafe:
            rest = rest[rest.index(BREAKS):]
        if isinstance(report, Safe):
            rest = rest[:2] + rest[-1:]
        for line in first.split(". ") + rest:
            for piece in line.strip().split("  "):
                self.assertIn(piece.strip(), found.read)
        tags = [tag for tag, _ in found.tags]
        self.assertEqual(tags.count("script"), 1 if unsafe else 0)
        self.assertEqual(dict(found.tags)["html"], {"lang": "en"})

    def test_text_is_shown_whole(self):
        """What ends the last line begins no other, unless the place of a
        refusal is there."""
        for case in cases():
            with self.subTest(case.name):
                lines = Page(page_of(*case.said)).lines
                shown = "\n".join(lines)
                for byte, escape in (("\t", "\\t"), ("\r", "\\r"),
                                     ("\xe9", "\\xc3\\xa9")):
                    shown = shown.replace(escape, byte)
                text = case.text.decode()
                if lines[-1] == ENDS:
                    self.assertEqual(shown.removesuffix(ENDS), text)
                else:
                    self.assertEqual(shown, text.removesuffix("\n"))

    def test_start_is_marked_where_nothing_starts(self):
        for case in cases():
            if b"void" in case.report:
                said = page_of(*case.said)
                marks = re.findall("<mark>(.*)</mark>", said)
                text = case.text.decode()
                start = text[text.index("start"):text.index("keep")]
                self.assertEqual(marks, start.rstrip().split("\n"),
                                 case.name)

    def test_text_too_long(self):
        found = Page(page_of(b" " * 16385, b"refused 1 16384\n"))
        self.assertIn("refused 1: the text is over 16,384 bytes", found.read)

    def test_steps(self):
        runs = [case.said for case in cases() if b"unsafe" in case.report]
        self.assertEqual(len(runs), 5)
        for said in [*runs, counter()]:
            heads, names, *rows = Page(page_of(*said)).rows
            self.assertEqual(heads[:3], ["step", "command", "choices"])
            meant = report_of(said[1])
            steps = [(number, step.command, step.word, step.after)
                     for number, step in enumerate(meant.steps, 1)]
            self.assertEqual(list(steps_of(rows)),
                             [(0, "start", 0, meant.start)] + steps)
            self.assertEqual(len(names), sum(meant.counts[:2]))

    def test_settings(self):
        """The cells are those of the plain table, where bars are marks."""
        safe = [case.said for case in cases() if case.name.startswith("safe")]
        self.assertEqual(len(safe), 5)
        for text, report, reservation in [*safe, all_settings()]:
            heads, *rows = Page(page_of(text, report, reservation)).rows
            lines = explained_by(plain, "FILE", text, report_of(report),
                                 reservation)[4:-2]
            cells = [[*before, *last.split()] for *before, last in
                     (map(str.strip, line.split(" | ")) for line in lines)]
            self.assertEqual(heads, cells[0])
            self.assertEqual([[said.replace("not\xa0", "not ")
                               for said in row] for row in rows],
                             [[*row[:-1], ""] for row in cells[1:]])
            self.assertEqual([(int(row[0]), int(row[-3].replace(",", "")))
                              for row in rows],
                             [(setting.number, setting.states) for setting
                              in report_of(report).settings])

    def test_bars(self):
        """One in each row, in percent of the longest, for eyes alone. A strip
        has pictures too, which have a role."""
        for said in [*(case.said for case in cases()), all_settings()]:
            found, meant = Page(page_of(*said)), report_of(said[1])
            counts = ([setting.states for setting in meant.settings]
                      if isinstance(meant, Safe) else [])
            charts = [attributes for tag, attributes in found.tags
                      if tag == "svg" and "role" not in attributes]
            self.assertEqual(charts, [{"aria-hidden": "true"}] * len(counts))
            bars = [attributes for tag, attributes in found.tags
                    if tag == "rect"]
            self.assertEqual(len(bars), len(counts))
            for count, chart in zip(counts, bars):
                length = int(chart["width"].removesuffix("%"))
                due = 100 * count / max(counts)
                self.assertLessEqual(abs(length - max(1, due)), 0.5)
                self.assertEqual(chart["height"], "100%")

    def test_small_shares_are_escaped(self):
        case = next(case for case in cases() if case.name == "safe_rare")
        self.assertIn("<td>&lt;0.1%</td>", page_of(*case.said))

    def test_no_column_without_shared_names(self):
        case = next(case for case in cases() if case.name == "safe_rows")
        self.assertEqual(Page(page_of(*case.said)).rows,
                         [["setting", "states", "share"],
                          ["0", "3", "100%", ""]])

    def test_changes_are_marked(self):
        _, _, *rows = Page(page_of(*counter())).rows
        for before, after in zip(rows, rows[1:]):
            for was, now in zip(before[3:], after[3:]):
                self.assertEqual(now, now[-1] if was[-1] == now[-1]
                                 else f"{was[-1]}→{now[-1]}")

    def test_commands_and_stars_can_be_found(self):
        """By what the script looks for: each command's pieces are the whole
        command, and its stars are numbered in text order."""
        due = {"several_steps": {"lend": "123", "expose": "12",
                                 "release": "1"},
               "other_case": {"Map": "12", "write": "1", "Lock": "1",
                              "unMap": "1"}}
        for case in (case for case in cases() if case.name in due):
            pieces, stars = {}, {}
            found = Page(page_of(*case.said))
            for attributes, said in found.spans:
                name = attributes["data-command"]
                pieces[name] = pieces.get(name, "") + said
                if attributes.get("class") == "star":
                    stars[name] = stars.get(name, "") + attributes["data-star"]
                    self.assertEqual(said, "*")
            _, *commands = case.text.decode().split("command ")
            self.assertEqual(
                [piece.removeprefix("command ") for piece in pieces.values()],
                [command.replace("\n", "") for command in commands])
            self.assertEqual(stars, due.pop(case.name))
            ran = {step.command for step in report_of(case.report).steps}
            self.assertLessEqual(ran, set(pieces))
        self.assertEqual(due, {})

    def test_script_finds_its_parts(self):
        case = next(case for case in cases() if case.name == "several_steps")
        said = page_of(*case.said)
        ids = {attributes.get("id") for _, attributes in Page(said).tags}
        sought = re.findall(r'part\("(\w+)"\)', said)
        sought += re.findall(r"^    (\w+): \(\) => show", said, re.MULTILINE)
        self.assertEqual(set(sought), {"first", "back", "forward", "last",
                                       "slider", "said"})
        self.assertLessEqual(set(sought), ids)

    def test_longest_page(self):
        self.assertLess(len(page_of(*counter()).encode()), 1 << 20)

    def test_markup_in_a_text(self):
        hostile = b'shared </ol><script>alert(1)</script>&amp;"\''
        found = Page(page_of(hostile, b"refused 2 7\n"))
        self.assertNotIn("script", [tag for tag, _ in found.tags])
        self.assertEqual(found.lines, [hostile.decode()])

    def test_markup_in_a_path(self):
        case = next(case for case in cases() if case.name == "safe")
        said = explained_by(page, "<b>&.text", case.text,
                            report_of(case.report), case.reservation)
        found = Page(said)
        self.assertNotIn("b", [tag for tag, _ in found.tags])
        self.assertIn("<b>&.text: safe", found.read)


if __name__ == "__main__":
    unittest.main()
