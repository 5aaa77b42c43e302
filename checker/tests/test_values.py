"""The corpus of values: that it is what its labels say, has all that it
should have, agrees with two other ways to value and to count, and shows up
programs that are wrong in one way."""

import random
import unittest
from collections import Counter
from functools import cache

from tests import wrong_groupings, wrong_orders, wrong_passes
from tests import wrong_values as wrong
from tests.other_values import (by_flat_form, by_tokens, count,
                                flat_expressions, pieces, read_once, run)
from corpora import reports, texts
from corpora.values import corpus
from evidence.values import expressions, line, nodes
from inputs.cases import G, H
from inputs.feed import packed_with_numbers
from inputs.phrases import command, loop, model, numbered
from inputs.random_texts import random_texts
from inputs.random_values import at_random, random_entries
from reader.faults import NODES
from reader.model import Refusal
from reader.notation import walk
from reader.tokens import cut

TWO_COMMANDS = model("a b", "x", commands=[
    command("c", "*", "a := *", "b := not *"),
    command("d", "a", loop("*", "x := * and b"))])
BOUND = model(start=("a or b and a", "not x and y"),
              keep=("not (a or b)", "(x or y) and not x"))
CHAINED = model(start=("a and b and a and b", "x or x or y or a and b"),
                keep=("0", "1"))
TWELVE = model(numbered("s", 8), numbered("r", 4), ("s0", "r3"), ("s7", "r0"))

# A text, a state, a word, and the line worked out by hand.
BY_HAND = (
    (G, 5, 2, "values 1 1 0 2 1 1 1 4 1 1 1 1 0 1 1 1 passes 12"),
    (G, 2, 1, "values 0 1 1 2 1 1 1 4 0 1 1 1 1 1 0 1 passes 12"),
    (H, 1, 3, "values 1 1 1 2 1 1 1 4 1 1 1 1 1 1 1 4 passes 15"),
    (H, 6, 2, "values 0 1 0 2 1 1 0 4 0 1 1 1 0 1 0 4 passes 15"),
    ("shared.row.start 0 each 1.keep 1 each 0."
     "command c if 0 do skip else skip.", 0, 0,
     "values 0 1 1 1 1 1 0 1 0 1 passes 5"),
    # a is bit 0, b bit 1, x bit 2, y bit 3.
    (BOUND, 9, 0, "values 1 5 1 4 0 4 1 6 1 1 passes 20"),
    (BOUND, 6, 0, "values 0 5 0 4 0 4 0 6 1 1 passes 20"),
    (BOUND, 12, 0, "values 0 5 0 4 1 4 0 6 1 1 passes 20"),
    (CHAINED, 3, 0, "values 1 7 1 9 0 1 1 1 1 1 passes 19"),
    (CHAINED, 1, 0, "values 0 7 0 9 0 1 1 1 1 1 passes 19"),
    (CHAINED, 12, 0, "values 0 7 1 9 0 1 1 1 1 1 passes 19"),
    (model(start=("not not not a", "((((x))))"),
           keep=("not (not a or not (b))", "1")), 4, 0,
     "values 1 4 1 1 0 6 1 1 1 1 passes 13"),
    # Stars 0 and 2 of both commands are true; a bit more means nothing.
    (TWO_COMMANDS, 2, 5,
     "values 1 1 1 1 1 1 1 1 1 1 0 1 0 2 0 1 1 1 0 3 passes 13"),
    (TWO_COMMANDS, 2, 13,
     "values 1 1 1 1 1 1 1 1 1 1 0 1 0 2 0 1 1 1 0 3 passes 13"),
    (TWO_COMMANDS, 3, 2,
     "values 1 1 1 1 1 1 1 1 0 1 1 1 1 2 1 1 0 1 1 3 passes 13"),
    (model(commands=[command("c", "* and not * or *", no="a := *")]), 0, 12,
     "values 1 1 1 1 1 1 1 1 1 6 1 1 passes 11"),
    # What is assigned before does not count.
    (model(commands=[command("c", "a", "a := 0; b := a",
                             "a := not a; b := a")]), 1, 0,
     "values 1 1 1 1 1 1 1 1 1 1 0 1 1 1 0 2 1 1 passes 10"),
    # m is bit 0, n bit 1, w bit 2, x bit 3, y bit 4.
    (model("m n", "w x y", ("m or n", "y and w"), ("not m", "x or y"),
           [command("c", "n", loop("w", "x := y; y := x", "w := not w"),
                    "m := n")]), 20, 0,
     "values 0 3 1 3 1 2 1 3 0 1 1 1 1 1 0 1 0 2 0 1 passes 18"),
    (TWELVE, 2048, 0, "values 0 1 1 1 0 1 0 1 1 1 passes 5"),
    (TWELVE, 256, 0, "values 0 1 0 1 0 1 1 1 1 1 passes 5"),
    (TWELVE, 129, 0, "values 1 1 0 1 1 1 0 1 1 1 passes 5"),
    ("", 0, 0, "refused 3 0"),
    ("shared a a.", 1, 1, "refused 4 9"),
    ("shared a. row. start a each *.", 1, 0, "refused 6 28"),
)


@cache
def right_line(*entry):
    return line(*entry)


@cache
def entries():
    return corpus()


def accepted(text):
    return not isinstance(read_once(text), Refusal)


class ByHand(unittest.TestCase):
    def test_lines(self):
        for text, state, word, meant in BY_HAND:
            self.assertEqual(line(text.encode(), state, word), meant, text)

    def test_form(self):
        self.assertEqual(
            packed_with_numbers([(b"", 0, 255), (b"a\nb", 12, 3), (b"\xff",)]),
            b"0\n\n0\n255\n3\na\nb\n12\n3\n1\n\xff\n")


class Corpus(unittest.TestCase):
    def test_size(self):
        self.assertGreaterEqual(len(entries()), 1500)
        self.assertLess(len(packed_with_numbers(
            entry for _, *entry in entries())), 1_000_000)
        self.assertLess(sum(len(right_line(*entry)) + 1
                            for _, *entry in entries()), 1_000_000)

    def test_all_differ(self):
        self.assertEqual(len({tuple(entry) for _, *entry in entries()}),
                         len(entries()))
        self.assertEqual(len({label for label, *_ in entries()}),
                         len(entries()))

    def test_same_again(self):
        self.assertEqual(corpus(), entries())

    def test_labels_that_say_the_answer(self):
        met = Counter()
        for label, *entry in entries():
            _, arrow, meant = label.rpartition(" -> ")
            if not arrow:
                continue
            said = right_line(*entry)
            kind = meant.split(" ")[0]
            if kind == "passes":
                self.assertTrue(said.endswith(f" {meant}"), label)
            else:
                self.assertTrue(f"{said} ".startswith(f"{meant} "), label)
            met[kind] += 1
        self.assertEqual(set(met), {"passes", "refused"})
        self.assertGreaterEqual(met["passes"], 300)
        self.assertGreaterEqual(met["refused"], 50)

    def test_refusals(self):
        met = Counter(right_line(*entry).split(" ")[1]
                      for _, *entry in entries() if not accepted(entry[0]))
        self.assertEqual(set(met), set("1234567"))
        for number in "234567":
            self.assertGreaterEqual(met[number], 5, number)

    def test_states_and_words(self):
        """Every model has its state; a word has eight bits."""
        for label, text, state, word in entries():
            said = read_once(text)
            names = (12 if isinstance(said, Refusal)
                     else len(said.shared + said.row))
            self.assertIn(state, range(1 << names), label)
            self.assertIn(word, range(256), label)

    def test_what_is_met(self):
        passes, sums, lengths, waited, words = (set() for _ in range(5))
        names, stars, states = set(), set(), set()
        for _, text, state, word in entries():
            said = read_once(text)
            if isinstance(said, Refusal):
                continue
            sizes = list(map(nodes, expressions(said)))
            passes |= set(sizes)
            sums.add(sum(sizes))
            lengths.add(len(sizes))
            waited |= {run(codes, state, word)[1]
                       for codes in flat_expressions(said)}
            words.add(word)
            names.add((len(said.shared), len(said.row)))
            stars |= {one.stars for one in said.commands}
            states.add(state)
        self.assertLessEqual({*range(1, 42), 127, 128, 129, 255, 256, 257,
                              511, 512, 513, 1012, 1019, 1020}, passes)
        self.assertLessEqual({5, 12, 15, 1023, 1024}, sums)
        self.assertEqual(max(sums), 1024)
        self.assertEqual(min(lengths), 5)
        self.assertEqual(max(lengths), 276)
        self.assertLessEqual({1, 2, 3, 4, 18, 19, 35}, waited)
        self.assertEqual(max(waited), 35)
        self.assertEqual(stars, set(range(9)))
        self.assertLessEqual({(0, 0), (0, 1), (1, 0), (8, 0), (0, 10), (8, 4),
                              (2, 10)}, names)
        lone = {1 << j for j in range(8)}
        self.assertLessEqual({0, 255} | lone | {255 ^ bit for bit in lone},
                             words)
        lone = {1 << j for j in range(12)}
        self.assertLessEqual({0, 4095} | lone | {4095 ^ bit for bit in lone},
                             states)

    def test_one_operand_decides(self):
        """Where x is set alone all values are true, and where x alone is not
        all but the first six are false, which are constants."""
        met = Counter()
        for label, text, state, word in entries():
            if label.split(":")[0] in ("nested_operands", "tallest"):
                values = right_line(text, state, word).split(" ")[1:-2:2]
                self.assertEqual(values[:6], ["1"] * 6, label)
                self.assertEqual(set(values[6:]), {str(int(state == 4))},
                                 label)
                met[state] += len(values[6:])
        self.assertEqual(met, {4: 4 * 18 + 35, 11: 4 * 18 + 35})


class Fuzzed(unittest.TestCase):
    def test_seed(self):
        self.assertEqual(random_entries(30, 5), random_entries(30, 5))
        self.assertNotEqual(random_entries(30, 5), random_entries(30, 6))

    def test_what_is_met(self):
        """Most texts say a model, and all of them have their state."""
        met = Counter()
        for text, state, word in random_entries(900, 4):
            said = line(text, state, word).split(" ")
            met[said[0] if said[0] == "values" else said[1]] += 1
            self.assertLess(word, 256)
            if said[0] == "values":
                model_said = read_once(text)
                self.assertLess(state, 1 << len(model_said.shared
                                                + model_said.row))
        self.assertGreater(met["values"], 600)
        self.assertGreater(900 - met["values"], 90)
        for number in "234567":
            self.assertGreater(met[number], 0, number)


class OtherWays(unittest.TestCase):
    @classmethod
    def setUpClass(cls):
        """Entries from this corpus, texts of the other corpora at random
        states, and random ones."""
        rng = random.Random(81)
        others = [text for _, text in texts.corpus() + reports.corpus()
                  + random_texts(300, 82)]
        found = [tuple(entry) for _, *entry in entries()]
        found += [at_random(rng, text) for text in others]
        found += random_entries(300, 83)
        cls.entries = [entry for entry in found if accepted(entry[0])]

    def test_enough(self):
        self.assertGreaterEqual(len(self.entries), 3000)
        self.assertGreaterEqual(len({text for text, *_ in self.entries}),
                                1800)

    def test_passes_are_the_nodes_of_the_text(self):
        """The sum is the number of the tokens that are nodes, however the
        expressions are found; it is never above the limit."""
        met = set()
        for text, state, word in self.entries:
            said = int(right_line(text, state, word).split(" ")[-1])
            parts, _ = walk(cut(text))
            self.assertEqual(said, len([part for part in parts if part.inside
                                        and part.kind in NODES]), text)
            self.assertEqual(said, sum(map(count, pieces(text))), text)
            self.assertLessEqual(said, 1024)
            met.add(said)
        self.assertLessEqual({5, 6, 7, 1023, 1024}, met)

    def test_by_tokens(self):
        for entry in self.entries:
            self.assertEqual(by_tokens(*entry), right_line(*entry), entry)

    def test_by_flat_form(self):
        for entry in self.entries:
            self.assertEqual(by_flat_form(*entry), right_line(*entry), entry)


class Wrong(unittest.TestCase):
    """Each names groups of the corpus that show it up."""

    @classmethod
    def setUpClass(cls):
        cls.groups = {}
        for label, *entry in entries():
            if accepted(entry[0]):
                cls.groups.setdefault(label.split(":")[0], []).append(entry)

    def is_shown(self, part, group):
        return any(part(*entry) != right_line(*entry)
                   for entry in self.groups[group])

    def assert_shown(self, part, *groups):
        for group in groups:
            self.assertTrue(self.is_shown(part, group), (group, part))

    def test_right_ones_pass(self):
        for part in (wrong.words_cut_to_stars, wrong_groupings.room_for_35,
                     wrong_passes.by_tokens_counted,
                     wrong_orders.clauses_first):
            for group in self.groups:
                self.assertFalse(self.is_shown(part, group), (group, part))

    def test_operators(self):
        for part in (wrong.and_for_or, wrong.or_for_and, wrong.one_of_many,
                     wrong.without_first_operand, wrong.without_last_operand,
                     wrong.last_operand_alone):
            self.assert_shown(part, "pairs_of_names", "threes_of_stars",
                              "fours", "chains", "constants", "in_one",
                              "small_values", "larger_values")
        self.assert_shown(wrong.first_two_operands, "threes_of_shared_names",
                          "threes_of_stars", "fours", "chains", "in_one")
        self.assert_shown(wrong.not_left_out, "worked", "pairs_of_names",
                          "nots", "every_depth", "in_one")
        self.assert_shown(wrong.two_nots_for_one, "nots", "every_depth",
                          "at_every_place")

    def test_constants(self):
        for part in (wrong.zero_for_one, wrong.one_for_zero):
            self.assert_shown(part, "no_names", "one_true", "constants",
                              "nested_operands", "tallest", "in_one")
        self.assert_shown(wrong.names_for_constants, "worked", "no_names",
                          "constants", "one_true")

    def test_bits_of_names(self):
        for part in (wrong.state_bits_reversed, wrong.names_from_one,
                     wrong.row_names_from_zero, wrong.row_names_from_eight,
                     wrong.row_names_below_shared, wrong.row_names_reversed,
                     wrong.first_name_for_all, wrong.names_by_word):
            self.assert_shown(part, "worked", "names", "names_elsewhere",
                              "clauses", "chains", "small_values")
        self.assert_shown(wrong.shared_names_reversed, "names",
                          "names_elsewhere", "clauses", "chains")

    def test_states(self):
        for part in (wrong.states_in_a_byte, wrong.states_below_2048,
                     wrong.three_digits_of_state):
            self.assert_shown(part, "names", "names_elsewhere", "chains",
                              "all_limits")
        for part in (wrong.first_state, wrong.next_state,
                     wrong.state_and_word_exchanged):
            self.assert_shown(part, "worked", "places", "names", "clauses",
                              "pairs_of_names", "small_values")
        self.assert_shown(wrong.after_items_before, "worked", "own_state",
                          "names", "nots", "small_values", "larger_values")
        self.assert_shown(wrong.after_commands_before, "own_state",
                          "in_every_command", "small_values",
                          "larger_values")

    def test_bits_of_stars(self):
        for part in (wrong.first_star_for_all, wrong.stars_from_one,
                     wrong.stars_from_the_last_bit, wrong.words_reversed,
                     wrong.names_for_stars, wrong.no_word, wrong.stars_true):
            self.assert_shown(part, "worked", "stars", "in_tests",
                              "in_every_command", "in_order",
                              "threes_of_stars", "larger_values")
        for part in (wrong.words_below_128, wrong.words_below_64,
                     wrong.two_digits_of_word):
            self.assert_shown(part, "stars", "in_tests", "beyond_the_stars",
                              "in_order", "all_limits")
        for part in (wrong.none_where_beyond_the_stars,
                     wrong.full_where_beyond_the_stars):
            self.assert_shown(part, "beyond_the_stars", "in_every_command",
                              "clauses", "small_values")

    def test_numbers_of_stars(self):
        self.assert_shown(wrong_groupings.stars_through_the_model,
                          "in_every_command", "beyond_the_stars",
                          "threes_of_stars", "all_limits", "larger_values")
        self.assert_shown(wrong_groupings.stars_anew_in_each_expression,
                          "worked", "stars", "in_every_command", "in_order",
                          "larger_values")
        for part in (wrong_groupings.stars_anew_after_else,
                     wrong_groupings.stars_anew_in_each_loop):
            self.assert_shown(part, "stars", "in_every_command",
                              "larger_values")

    def test_groupings(self):
        for part in (wrong_groupings.not_binds_loosest,
                     wrong_groupings.not_binds_between):
            self.assert_shown(part, "pairs_of_names", "threes_of_stars",
                              "nots", "grouped_chains", "larger_values")
        for part in (wrong_groupings.or_binds_tighter,
                     wrong_groupings.equally_tight):
            self.assert_shown(part, "threes_of_shared_names",
                              "threes_of_both_kinds", "threes_of_stars",
                              "fours", "constants", "grouped_chains",
                              "tallest", "larger_values")
        self.assert_shown(wrong_groupings.parentheses_unread, "worked",
                          "threes_of_both_kinds", "fours", "nots",
                          "nested_operands", "tallest", "small_values")

    def test_nodes_run(self):
        for part in (wrong_groupings.first_node_skipped,
                     wrong_groupings.last_node_skipped,
                     wrong_groupings.first_node_alone):
            self.assert_shown(part, "worked", "pairs_of_names", "fours",
                              "constants", "nots", "chains", "in_one",
                              "small_values", "larger_values")
        self.assert_shown(wrong_groupings.a_not_skipped, "worked",
                          "pairs_of_names", "nots", "every_depth", "in_one")
        self.assert_shown(wrong_groupings.nodes_to_255, "nearly_all",
                          "in_one")
        self.assert_shown(wrong_groupings.nodes_to_1000, "in_one")

    def test_room_for_values(self):
        for part in (wrong_groupings.room_for_34,
                     wrong_groupings.room_for_32):
            self.assert_shown(part, "tallest")
        self.assert_shown(wrong_groupings.room_for_16, "tallest",
                          "nested_operands")
        self.assert_shown(wrong_groupings.room_for_two, "fours",
                          "threes_of_stars", "tallest", "wide",
                          "larger_values")

    def test_passes(self):
        for part in (wrong_passes.one_too_many, wrong_passes.one_too_few,
                     wrong_passes.operators_alone):
            self.assert_shown(part, *self.groups)
        for part in (wrong_passes.one_in_all, wrong_passes.nots_uncounted,
                     wrong_passes.by_height, wrong_passes.operands_alone,
                     wrong_passes.operators_after_each_operand):
            self.assert_shown(part, "worked", "places", "one_larger", "nots",
                              "every_depth", "nearly_all", "in_one",
                              "small_values", "larger_values")
        self.assert_shown(wrong_passes.constants_uncounted, "worked",
                          "no_names", "constants", "one_true", "nots")
        self.assert_shown(wrong_passes.names_uncounted, "worked", "names",
                          "places", "nots", "nearly_all")
        self.assert_shown(wrong_passes.stars_uncounted, "worked", "stars",
                          "in_tests", "threes_of_stars", "nots")
        self.assert_shown(wrong_passes.chains_as_one, "places", "one_larger",
                          "fours", "chains", "grouped_chains", "in_one")
        self.assert_shown(wrong_passes.equal_nodes_once, "places", "fours",
                          "constants", "tallest", "nearly_all")
        self.assert_shown(wrong_passes.until_decided, "worked", "places",
                          "pairs_of_names", "chains", "constants", "tallest",
                          "nearly_all", "in_one", "small_values")
        for part in (wrong_passes.parentheses_counted,
                     wrong_passes.pairs_of_parentheses_counted):
            self.assert_shown(part, "worked", "pairs_of_names", "nots",
                              "every_depth", "nested_operands", "tallest",
                              "small_values")
        for part in (wrong_passes.in_a_byte, wrong_passes.at_most_255):
            self.assert_shown(part, "wide", "nearly_all", "in_one", "in_few")
        self.assert_shown(wrong_passes.three_digits, "nearly_all", "in_one")
        for part in (wrong_passes.running_passes, wrong_passes.last_untold,
                     wrong_passes.passes_before_value):
            self.assert_shown(part, "worked", "no_names", "places",
                              "most_expressions", "small_values")

    def test_sums(self):
        for part in (wrong_passes.sum_without_clauses,
                     wrong_passes.sum_of_clauses,
                     wrong_passes.sum_without_first,
                     wrong_passes.sum_without_last,
                     wrong_passes.sum_of_values, wrong_passes.sum_of_true,
                     wrong_passes.largest_for_sum, wrong_passes.last_for_sum):
            self.assert_shown(part, "worked", "no_names", "places", "stars",
                              "most_expressions", "small_values")
        self.assert_shown(wrong_passes.how_many_for_sum, "worked", "places",
                          "most_expressions", "small_values")
        self.assert_shown(wrong_passes.sum_in_a_byte, "places", "most_items",
                          "nearly_all", "in_many", "most_expressions")
        for part in (wrong_passes.sum_below_1024,
                     wrong_passes.three_digits_of_sum):
            self.assert_shown(part, "nearly_all", "in_one", "in_many",
                              "most_expressions", "all_limits")

    def test_clauses(self):
        for part in (wrong_orders.without_clauses, wrong_orders.clauses_alone,
                     wrong_orders.clauses_last, wrong_orders.keep_before_start,
                     wrong_orders.start_for_keep, wrong_orders.without_each,
                     wrong_orders.each_before_shared, wrong_orders.backwards,
                     wrong_orders.shared_parts_first):
            self.assert_shown(part, "worked", "no_names", "places",
                              "one_true", "clauses", "small_values")
        self.assert_shown(wrong_orders.equal_ones_once, "worked", "no_names",
                          "stars", "in_many")

    def test_commands(self):
        for part in (wrong_orders.first_command_alone,
                     wrong_orders.last_command_alone,
                     wrong_orders.last_command_first):
            self.assert_shown(part, "places", "own_state", "most_commands",
                              "in_every_command", "small_values")
        self.assert_shown(wrong_orders.fifteen_commands, "in_every_command",
                          "most_expressions", "most_commands")

    def test_sides(self):
        for part in (wrong_orders.without_tests, wrong_orders.tests_alone,
                     wrong_orders.test_last, wrong_orders.do_for_else,
                     wrong_orders.without_do, wrong_orders.without_else,
                     wrong_orders.else_before_do,
                     wrong_orders.branch_taken_alone):
            self.assert_shown(part, "places", "one_larger", "one_true",
                              "own_state", "stars", "small_values")

    def test_items(self):
        for part in (wrong_orders.targets_too, wrong_orders.targets_alone,
                     wrong_orders.without_values, wrong_orders.without_loops,
                     wrong_orders.without_conditions,
                     wrong_orders.conditions_alone,
                     wrong_orders.condition_last, wrong_orders.loops_last,
                     wrong_orders.without_row_do,
                     wrong_orders.without_row_else,
                     wrong_orders.row_else_before_do):
            self.assert_shown(part, "places", "one_larger", "one_true",
                              "own_state", "stars", "small_values")
        self.assert_shown(wrong_orders.skips_too, "worked", "no_names",
                          "skipping", "most_items")


if __name__ == "__main__":
    unittest.main()
