"""The strip of a long run: there for runs of more than 20 steps alone, with a
mark for each step in the lane of its command, and small."""

import re
import unittest
from unittest import mock

import page
from explaining import explained_by
from page import part
from runs import lines_of
from stored import MOST_STEPS, cases, counter, reserved, stars
from strip import consecutive, has_strip, scale
from test_pages import Page
from texts import model_of
from traces import report_of

LANE = re.compile(
    r'<tr><th scope="row"><div>(\w+) <span>([\d,]+)</span></div></th><td><svg '
    r'viewBox="0 0 (\d+) 2" preserveAspectRatio="none" role="img"><title>'
    r'([^<]*)</title><path d="((?:M\d+ 1h\d+)*)"/></svg></td></tr>')
LONG = next(case for case in cases() if case.name == "several_bursts")
SHORT = 20


def page_of(text, report, reservation):
    return explained_by(page, "FILE", text, report_of(report), reservation)


def without_strip(said):
    with mock.patch("page.has_strip", return_value=False):
        return page_of(*said)


def cut(count):
    """The longest run, which ends after so many steps."""
    text, report, reservation = counter()
    model, _, start, *steps = report.splitlines(keepends=True)
    unsafe = b"unsafe %d\n" % count
    return (text, b"".join([model, unsafe, start, *steps[:count]]),
            reservation)


def many():
    """As many steps, commands and stars as there can be, where no two
    consecutive steps have the same command. The last one never runs."""
    text, report, _ = counter()
    names = [f"command_number_{j:x}" for j in range(16)]
    head = text[:text.index(b"command")]
    commands = "".join(f"command {name} if {stars(8)} do skip else skip.\n"
                       for name in names)
    model, *rest = report.decode().splitlines(keepends=True)
    steps = [line.replace("a_longer_command", names[7 * j % 15])
             for j, line in enumerate(rest)]
    return (head + commands.encode(),
            (model.replace(" 1\n", " 16\n") + "".join(steps)).encode(),
            reserved(4096 * 256 * 16))


def marked(path):
    """The numbers of the steps that a lane has a mark for."""
    return [int(at) + j for at, count in re.findall(r"M(\d+) 1h(\d+)", path)
            for j in range(1, int(count) + 1)]


class Strip(unittest.TestCase):
    def test_every_step_has_its_mark(self):
        for text, report, reservation in (LONG.said, cut(SHORT + 1),
                                          counter(), many()):
            found = LANE.findall(page_of(text, report, reservation))
            steps = report_of(report).steps
            names = [command.name for command in model_of(text).commands]
            self.assertEqual([lane[0] for lane in found], names)
            for name, count, last, _, path in found:
                due = [number for number, step in enumerate(steps, 1)
                       if step.command == name]
                self.assertEqual(marked(path), due)
                self.assertEqual(count, f"{len(due):,}")
                self.assertEqual(int(last), len(steps))
            counts = [int(lane[1].replace(",", "")) for lane in found]
            self.assertEqual(sum(counts), len(steps))

    def test_lanes_of_a_run(self):
        found = {name: (said, path) for name, _, _, said, path
                 in LANE.findall(page_of(*LONG.said))}
        self.assertEqual(found, {
            "reset": ("reset: no step", ""),
            "call_a": ("call_a: 16 steps, from step 1 to step 19",
                       "M0 1h4M5 1h4M10 1h4M15 1h4"),
            "audit": ("audit: 7 steps, from step 5 to step 36",
                      "M4 1h1M9 1h1M14 1h1M19 1h1M25 1h1M30 1h1M35 1h1"),
            "switch": ("switch: 1 step, which is step 21", "M20 1h1"),
            "call_b": ("call_b: 16 steps, from step 22 to step 40",
                       "M21 1h4M26 1h4M31 1h4M36 1h4"),
        })

    def test_short_runs_have_none(self):
        """Their page has nothing of it, in style and script neither."""
        runs = [case.said for case in cases()
                if b"unsafe" in case.report and case != LONG]
        for said in [*runs, cut(1), cut(SHORT)]:
            whole = page_of(*said)
            self.assertNotIn("lanes", whole)
            self.assertIn(f"<style>\n{part('page.css')}</style>", whole)
            self.assertIn(f"<script>\n{part('page.js')}</script>", whole)
        for count in (SHORT, SHORT + 1):
            text, report, _ = cut(count)
            lines = lines_of(report_of(report), model_of(text))
            self.assertEqual(has_strip(lines), count > SHORT)

    def test_only_the_strip_is_added(self):
        """With its style and its script; it stands before all steps."""
        whole = page_of(*LONG.said)
        begin = whole.index("<!-- The run at a glance")
        end = whole.index("<!-- Every step of the run")
        for added in (whole[begin:end], part("strip.css"), part("strip.js")):
            self.assertEqual(whole.count(added), 1)
            whole = whole.replace(added, "")
        self.assertEqual(whole, without_strip(LONG.said))

    def test_picture_without_script(self):
        """What tells of clicks is hidden until the script shows it, and
        marks have no handlers and are no stops of the tabulator."""
        found = Page(page_of(*LONG.said))
        told = [attributes for tag, attributes in found.tags
                if tag == "p" and attributes.get("class") == "player"]
        self.assertEqual([set(one) for one in told], [{"class", "hidden"}])
        for tag, attributes in found.tags:
            if tag in ("svg", "path", "text", "line"):
                self.assertNotIn("tabindex", attributes)
        pictures = [attributes for tag, attributes in found.tags
                    if tag == "svg"]
        self.assertEqual({one["role"] for one in pictures}, {"img"})
        tags = [tag for tag, _ in found.tags]
        self.assertEqual(tags.count("title"), 1 + len(pictures))

    def test_script_finds_its_parts(self):
        whole = page_of(*LONG.said)
        found = Page(whole)
        classes = {word for _, attributes in found.tags
                   for word in (attributes.get("class") or "").split()}
        sought = re.findall(r'querySelector\("\.(\w+)', part("strip.js"))
        self.assertEqual(set(sought), {"steps", "lanes"})
        self.assertLessEqual(set(sought), classes)
        styles = dict(attributes.get("style", "").split(": ")
                      for _, attributes in found.tags
                      if "style" in attributes)
        self.assertEqual(styles, {"--steps": "40"})

    def test_consecutive(self):
        for numbers, due in (([], []), ([3], [(3, 1)]), ([1, 2], [(1, 2)]),
                             ([1, 3, 4, 5, 9], [(1, 1), (3, 3), (9, 1)])):
            self.assertEqual(consecutive(numbers), due)

    def test_scale(self):
        """Up to eight round numbers, each at the end of its step."""
        for last in (*range(SHORT + 1, 900), 3999, 4000, 4094, MOST_STEPS):
            told = re.findall(r'<text x="([\d.]+)%" y="70%">([\d,]+)</text>'
                              r'<line x1="\1%" x2="\1%"', scale(last))
            numbers = [int(said.replace(",", "")) for _, said in told]
            self.assertTrue(3 <= len(numbers) <= 8, last)
            self.assertEqual(numbers, [numbers[0] * j for j in
                                       range(1, last // numbers[0] + 1)])
            for (place, _), number in zip(told, numbers):
                self.assertLess(abs(float(place) - 100 * number / last), 0.01)

    def test_largest_strip(self):
        """It adds little to a page of which a table of all steps is part."""
        with_strip, without = (len(said.encode()) for said in (
            page_of(*many()), without_strip(many())))
        self.assertLess(with_strip - without, without // 16)


if __name__ == "__main__":
    unittest.main()
