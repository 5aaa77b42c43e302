"""Sheets and the acceptance test against answers worked out by hand, and
one row against tables of one, two and three rows that are walked apart."""

import random
import unittest
from collections import Counter

from evidence.acceptance import HOLDS, answer
from evidence.report import verdict
from evidence.searching import search
from evidence.sheets import (Map, Trace, contents, header, map_sheet, record,
                             step_record, trace_sheet)
from inputs.cases import G, G_SHEET, G_VOID, H, map_for, table_of
from inputs.phrases import model
from inputs.small_models import small_text
from inputs.starts import NOTHING_STARTS, ONE_STARTS
from rows.copied_runs import copied_run_holds
from rows.tables import can_start, goes_wrong


def by_map(text, *members):
    return answer(text.encode(), map_for(text, members))


def small_tables(rng, count):
    """Random texts, each with its model's table."""
    for _ in range(count):
        text = small_text(rng)
        yield text, table_of(text)


class Cases(unittest.TestCase):
    def test_first_run(self):
        table = table_of(G)
        start, steps = search(table)
        self.assertEqual((start, steps), (1, ((0, 3, 7),)))
        self.assertEqual(trace_sheet(table, start, steps), G_SHEET)
        self.assertEqual(answer(G.encode(), G_SHEET), "trace holds")

    def test_maps(self):
        self.assertEqual(search(table_of(H)), {1, 3, 5})
        self.assertEqual(by_map(H, 1, 3, 5), "safe holds")
        self.assertEqual(by_map(H, 0, 1, 2, 3, 4, 5), "safe holds")
        self.assertEqual(by_map(H, 1, 5), "A")
        self.assertEqual(by_map(H, *range(8)), "B")
        self.assertEqual(by_map(H, 1, 3), "C")

    def test_traces(self):
        self.assertEqual(answer(H.encode(), G_SHEET), "E")
        table = table_of(G)

        def by_trace(start, *steps):
            return answer(G.encode(), trace_sheet(table, start, steps))

        self.assertEqual(by_trace(0, (0, 3, 7)), "D")
        self.assertEqual(by_trace(1, (0, 3, 5)), "E")
        self.assertEqual(by_trace(1, (0, 1, 3)), "F")
        self.assertEqual(by_trace(1), "F")
        self.assertEqual(by_trace(1, (0, 1, 3), (0, 3, 7)), "trace holds")
        self.assertEqual(by_trace(1, (0, 1, 3), (0, 3, 5)), "E")

    def test_break_at_start(self):
        text = G.replace("keep 1 each not (w and x)", "keep 0 each 1")
        self.assertEqual(search(table_of(text)), (1, ()))

    def test_no_start(self):
        table = table_of(G_VOID)
        self.assertEqual(search(table), set())
        self.assertEqual(verdict(table, set()), "void")
        self.assertEqual(by_map(G_VOID), "void")
        self.assertEqual(by_map(G_VOID, 0, 2, 4), "void")
        self.assertEqual(by_map(G_VOID, 0, 6), "B")
        self.assertEqual(by_map(G_VOID, 0, 1), "C")
        self.assertEqual(answer(G_VOID.encode(), G_SHEET), "D")

    def test_void_of_no_other_empty_map(self):
        for text in (G, H):
            self.assertEqual(by_map(text), "A")


class Sheets(unittest.TestCase):
    def assert_refused(self, number, place, sheet, text=G):
        self.assertEqual(answer(text.encode(), sheet),
                         f"refused {number} {place}")

    def test_text_first(self):
        self.assert_refused(3, 0, b"", "")

    def test_cut(self):
        for length in range(len(G_SHEET)):
            place = max(start for start in (0, 9, 17) if start <= length)
            if length == 17:
                self.assertEqual(answer(G.encode(), G_SHEET[:17]), "F")
            else:
                self.assert_refused(9, place, G_SHEET[:length])

    def test_header(self):
        rest = G_SHEET[9:]
        for counts in ([2, 2, 1], [1, 1, 1], [1, 2, 2]):
            self.assert_refused(10, 0, record(1, counts) + rest)
        self.assert_refused(9, 0, record(2, [1, 2, 1]) + rest)
        self.assert_refused(9, 0, record(1, [1, 2, 1, 0]) + rest)

    def test_order(self):
        head = G_SHEET[:9]
        self.assert_refused(9, 9, head + head)
        self.assert_refused(9, 9, head + step_record(0, 3, 7))
        self.assert_refused(9, 17, G_SHEET[:17] + G_SHEET[9:17])
        self.assert_refused(9, 27, G_SHEET + record(2, [0]))

    def test_map(self):
        head = G_SHEET[:9]
        self.assert_refused(9, 9, head + record(2, []))
        self.assert_refused(9, 9, head + record(2, [0, 0]))
        self.assert_refused(9, 16, head + record(2, [42]) + b"\0")

    def test_unused_bits(self):
        text = model("a", "x")
        head = header(table_of(text))
        self.assert_refused(9, 9, head + record(2, [31]), text)
        self.assert_refused(9, 9, head + record(2, [31]) + b"\0", text)
        self.assertEqual(answer(text.encode(), head + record(2, [15])),
                         "safe holds")

    def test_ranges(self):
        head, start = G_SHEET[:9], G_SHEET[:17]
        self.assert_refused(10, 9, head + record(3, [8, 0]))
        self.assert_refused(10, 9, head + record(3, [0, 1]))
        for step in ((1, 0, 0), (0, 4, 0), (0, 0, 8)):
            self.assert_refused(10, 17, start + step_record(*step))
        late = start + step_record(0, 3, 7) + step_record(0, 4, 7)
        self.assert_refused(10, 27, late)
        self.assert_refused(10, 27, late + b"\0")

    def test_longest(self):
        self.assert_refused(9, 65536, bytes(65537))
        self.assert_refused(9, 0, bytes(65536))
        steps = [(0, 1, 3)] * 6551
        whole = trace_sheet(table_of(G), 1, steps)
        self.assertEqual(len(whole), 65527)
        self.assertEqual(answer(G.encode(), whole), "F")
        self.assert_refused(9, 65536, whole + step_record(0, 3, 7))

    def test_no_names(self):
        text = model("", "")
        self.assertEqual(by_map(text, 0), "safe holds")
        self.assertEqual(by_map(text), "A")
        self.assert_refused(9, 9, header(table_of(text)) + record(2, [2]),
                            text)

    def test_written_sheets_are_read(self):
        table = table_of(H)
        self.assertEqual(contents(map_sheet(table, {1, 3}), table),
                         Map(frozenset({1, 3})))
        self.assertEqual(contents(G_SHEET, table), Trace(1, ((0, 3, 7),)))


class ManyRows(unittest.TestCase):
    def test_one_row_tells_of_three(self):
        met = Counter()
        for text, table in small_tables(random.Random(7), 300):
            found = search(table)
            said = verdict(table, found)
            for rows in (1, 2, 3):
                self.assertEqual(goes_wrong(table.model, rows),
                                 said == "unsafe", text)
                self.assertEqual(can_start(table.model, rows),
                                 said != "void", text)
            if said == "unsafe":
                sheet = trace_sheet(table, *found)
                self.assertEqual(answer(text.encode(), sheet), "trace holds")
                for rows in (1, 2, 3):
                    self.assertTrue(copied_run_holds(table, *found, rows),
                                    text)
                said += f" {min(len(found[1]), 2)}"
            else:
                self.assertEqual(by_map(text, *found), HOLDS[said])
                self.assertEqual(bool(found), said == "safe", text)
            met[said] += 1
        for kind in ("unsafe 0", "unsafe 1", "unsafe 2"):
            self.assertGreater(met[kind], 0, kind)
        for kind in ("safe", "void"):
            self.assertGreaterEqual(met[kind], 50, kind)

    def test_starts_in_every_row(self):
        """Each way to contradict, and each single start state."""
        for starts, meant in ((NOTHING_STARTS, False), (ONE_STARTS, True)):
            for detail, shared, row, start, *_ in starts:
                table = table_of(model(shared, row, start))
                self.assertEqual(table.can_start(), meant, detail)
                for rows in (1, 2, 3):
                    self.assertEqual(can_start(table.model, rows), meant,
                                     detail)

    def test_any_passing_sheet_is_right(self):
        rng = random.Random(8)
        met = Counter()
        for text, table in small_tables(rng, 400):
            members = {state for state in range(table.states)
                       if rng.random() < 0.8 and not table.breaks(state)}
            said = by_map(text, *members)
            if said in ("safe holds", "void"):
                for rows in (1, 2, 3):
                    self.assertFalse(goes_wrong(table.model, rows), text)
                    self.assertEqual(can_start(table.model, rows),
                                     said == "safe holds", text)
            met[said, bool(members)] += 1
        for said in ("safe holds", "void", "A", "C"):
            self.assertGreaterEqual(met[said, True], 5, said)

    def test_no_rows(self):
        text = model("", "", ("1", "0"), ("0", "1"))
        table = table_of(text)
        self.assertEqual(by_map(text), "void")
        for rows, meant in ((0, True), (1, False)):
            self.assertEqual(can_start(table.model, rows), meant)
            self.assertEqual(goes_wrong(table.model, rows), meant)


if __name__ == "__main__":
    unittest.main()
