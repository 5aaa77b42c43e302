"""The corpus of reservations: that the checker finds the numbers worked out
by hand, that other ways to count agree with them, and that a comparison with
the corpus shows up libraries that are wrong in one way."""

import io
import random
import unittest
from collections import Counter
from contextlib import redirect_stdout
from functools import cache

from tests import wrong_calls, wrong_trials
from tests import wrong_reservations as wrong
from tests.stand_ins import StandIn, members, table_in
from comparing.differences import Differences
from comparing.reservations import compare_all
from comparing.told import reserve_told, search_told
from corpora.reports_runs import counter
from corpora.reservations import corpus, due, meant_by
from evidence.acceptance import HOLDS, answer
from evidence.calls import found_in, reserve_leaves, search_leaves
from evidence.one_row import OneRow
from evidence.reservations import Reservation, reserved, written
from evidence.searching import search
from evidence.trials import made
from inputs.cases import G, G_SHEET, G_VOID, H
from inputs.random_searches import random_models
from reader.model import Refusal
from reader.reading import read
from reader.tokens import NAME, cut
from rows.tables import reachable, states, successors, walked

MOST_WALKED = 70_000
MOST_TRIALS = 1000
MOST_ROWS_WALKED = 2000


@cache
def texts():
    return corpus()


@cache
def fuzzed():
    return [text for text in random_models(250, 9)
            if not isinstance(read(text), Refusal)]


@cache
def found(text):
    return found_in(text)


@cache
def known():
    """What is due for each text of the corpus, by its label."""
    return {text: due(label, text) for label, text in texts()}


def models():
    """Label, text and what is meant, of each text that says a model."""
    for label, text in texts():
        meant = meant_by(label)
        if not isinstance(meant, Refusal):
            yield label, text, meant


class Noting(OneRow):
    """Notes each trial that is made."""

    def __init__(self, model):
        super().__init__(model)
        self.tried = Counter()

    def step(self, state, command, word):
        self.tried[state, command, word] += 1
        return super().step(state, command, word)


def by_tokens(text):
    """The reservation by the tokens of a text alone: names before `start`,
    and the stars from each `command` on."""
    names, stars = 0, []
    for token in cut(text):
        if token.kind == "command":
            stars.append(0)
        elif token.kind == "*":
            stars[-1] += 1
        elif token.kind == "start":
            entries = 2 ** names
        elif token.kind == NAME:
            names += 1
    return (entries, entries * 10 + 7,
            sum(entries * 2 ** count for count in stars))


class ByHand(unittest.TestCase):
    def test_reservations(self):
        for label, text in texts():
            meant = meant_by(label)
            due_here = (meant if isinstance(meant, Refusal)
                        else meant.reservation)
            self.assertEqual(reserved(text), due_here, label)

    def test_searches(self):
        """All but one are searched. In that one every state starts and none
        breaks, so that each of them is in the map."""
        left = []
        for label, text, meant in models():
            if meant.trials > MOST_WALKED:
                left.append(label.split(":")[0])
                table = table_in(text)
                self.assertTrue(all(table.starts(state)
                                    and not table.breaks(state)
                                    for state in range(table.states)), label)
                self.assertEqual(meant.trials, meant.reservation.trials)
            else:
                self.assertEqual(found(text), known()[text], label)
        self.assertEqual(left, ["greatest"])

    def test_written(self):
        self.assertEqual(written(reserved(H.encode())),
                         "entries 8\nbytes 87\ntrials 32\n")
        self.assertEqual(written(reserved(b"")), "refused 3 0\n")
        self.assertEqual(written(reserved(b" " * 16385)),
                         "refused 1 16384\n")

    def test_told(self):
        """Numbers as a library answers them, in words."""
        self.assertEqual(search_told(ord("s") + 256 * (16 + 65536 * 12)),
                         "safe 16 12")
        self.assertEqual(search_told(ord("u") + 256 * 40967),
                         "unsafe 40967 0")
        self.assertEqual(search_told(ord("v") + 256 * 16), "void 16 0")
        self.assertEqual(search_told(ord("s") + 256 * (527 + (1 << 40))),
                         "safe 527 16777216")
        self.assertEqual(search_told(7 + 256 * 54), "refused 7 54")
        self.assertEqual(search_told(8), "refused 8 0")
        self.assertEqual(reserve_told(ord("r")), "reserved 0")
        self.assertEqual(reserve_told(ord("r") + 256), "reserved 1")
        self.assertEqual(reserve_told(1 + 256 * 16384), "refused 1 16384")


class Corpus(unittest.TestCase):
    def test_size(self):
        self.assertGreaterEqual(len(texts()), 230)
        self.assertLess(sum(len(text) for _, text in texts()), 400_000)

    def test_all_differ(self):
        self.assertEqual(len({label for label, _ in texts()}), len(texts()))
        self.assertEqual(len({text for _, text in texts()}), len(texts()))

    def test_same_again(self):
        self.assertEqual(corpus(), texts())

    def test_what_is_met(self):
        names, counts, stars, verdicts, trials = (set() for _ in range(5))
        for _, text, meant in models():
            table = table_in(text)
            names.add((table.names, meant.verdict))
            counts.add(table.commands)
            stars |= {command.stars for command in table.model.commands}
            verdicts.add(meant.verdict)
            trials.add(meant.reservation.trials)
        self.assertLessEqual({(count, "safe") for count in range(13)}, names)
        self.assertLessEqual({(count, verdict) for count in (3, 12)
                              for verdict in ("void", "unsafe")}, names)
        self.assertLessEqual({1, 2, 3, 8, 9, 15, 16}, counts)
        self.assertEqual(stars, set(range(9)))
        self.assertEqual(verdicts, {"safe", "void", "unsafe"})
        self.assertEqual(max(trials), 4096 * 16 * 256)
        self.assertEqual(min(trials), 1)

    def test_refusals(self):
        met = Counter(meant.number for meant in
                      (meant_by(label) for label, _ in texts())
                      if isinstance(meant, Refusal))
        self.assertEqual(set(met), set(range(1, 8)))
        for number in range(1, 8):
            self.assertGreaterEqual(met[number], 2, number)


class Counted(unittest.TestCase):
    """What is counted one by one, against what is multiplied."""

    def searched(self):
        """Table and Found of texts of the corpus and of random ones."""
        for _, text, meant in models():
            if meant.trials <= MOST_WALKED:
                yield text, table_in(text), found(text)
        for text in fuzzed():
            yield text, table_in(text), found(text)

    def test_trials(self):
        met = Counter()
        for text, table, here in self.searched():
            words = [table.words(number) for number in range(table.commands)]
            met[here.verdict, max(words) > 1] += 1
            self.assertLessEqual(here.trials, here.reservation.trials, text)
            if here.verdict == "safe":
                self.assertEqual(here.trials, members(here) * sum(words),
                                 text)
                met["all" if members(here) == table.states else "some"] += 1
            elif here.verdict == "void":
                self.assertEqual(made(table), (0, False), text)
                self.assertEqual(here.trials, 0, text)
            else:
                count, broken = made(table)
                self.assertTrue(broken, text)
                self.assertLessEqual(count, here.reservation.trials, text)
                self.assertEqual(here.trials, 0, text)
                met["tried before a break"] += count > 0
        for kind in (("safe", False), ("safe", True), ("void", True),
                     ("unsafe", True), "all", "some", "tried before a break"):
            self.assertGreaterEqual(met[kind], 30, kind)

    def test_each_trial_once(self):
        """A search that comes to its end tries each command with each word
        at each member, and nothing twice."""
        for text, table, here in self.searched():
            if here.verdict == "unsafe" or here.trials > MOST_TRIALS:
                continue
            noting = Noting(table.model)
            made(noting)
            self.assertEqual(noting.tried, Counter(
                (state, command, word) for state in search(table)
                for command in range(table.commands)
                for word in range(table.words(command))), text)

    def test_made_until_a_break(self):
        """From state 1 words 0, 1 and 2 are tried in vain, then 3."""
        self.assertEqual(made(table_in(G.encode())), (4, True))
        self.assertEqual(made(table_in(H.encode())), (12, False))
        self.assertEqual(made(table_in(G_VOID.encode())), (0, False))
        broken = G.replace("keep 1 each not (w and x)", "keep 0 each 1")
        self.assertEqual(made(table_in(broken.encode())), (0, True))

    def test_by_tokens(self):
        for _, text, meant in models():
            self.assertEqual(by_tokens(text), meant.reservation, text)
        for text in fuzzed():
            self.assertEqual(by_tokens(text), reserved(text), text)

    def test_walked_tables(self):
        """Tables of one row, walked without numbers of states: all their
        states, all successors of all of them, all successors of those that
        runs lead to."""
        met = Counter()
        for text, table, here in self.searched():
            model = table.model
            self.assertEqual(walked(model, 1), here.reservation.trials, text)
            if walked(model, 1) > MOST_ROWS_WALKED:
                continue
            every = list(states(model, 1))
            self.assertEqual(len(every), here.reservation.entries, text)
            self.assertEqual(self.tried(model, every),
                             here.reservation.trials, text)
            if here.verdict != "unsafe":
                self.assertEqual(self.tried(model, reachable(model, 1)),
                                 here.trials, text)
            met[here.verdict] += 1
        for kind in ("safe", "void", "unsafe"):
            self.assertGreaterEqual(met[kind], 30, kind)

    def tried(self, model, from_states):
        return sum(1 for state in from_states
                   for _ in successors(model, state))

    def test_sheets_fit(self):
        """No sheet is longer than what is reserved, and the longest trace
        that a table has leaves no byte."""
        for text, _, here in self.searched():
            self.assertLessEqual(len(here.sheet), here.reservation.bytes,
                                 text)
        for shared, row in ((1, 0), (0, 2), (2, 1), (3, 2), (4, 4)):
            last = (1 << shared + row) - 1
            here = found(counter(shared, row, 0, last).encode())
            self.assertEqual(here.verdict, "unsafe")
            self.assertEqual(len(here.sheet), here.reservation.bytes)

    def test_random_models(self):
        """Of a hundred more than 20 are safe with stars, and more than ten
        of these have commands with unequal numbers of them and some of the
        states, but not all or one."""
        starred, telling, stars = 0, 0, set()
        for text in fuzzed():
            here, table = found(text), table_in(text)
            counts = {one.stars for one in table.model.commands}
            if here.verdict == "safe" and max(counts):
                starred += 1
                stars |= counts
                telling += (len(counts) > 1
                            and 1 < members(here) < table.states)
        self.assertGreater(starred, len(fuzzed()) // 5)
        self.assertGreater(telling, len(fuzzed()) // 10)
        self.assertEqual(stars, set(range(9)))


class Lent(unittest.TestCase):
    """What is due where buffers are short, just right, or longer."""

    def test_entries(self):
        right = Reservation(8, 87, 32)
        for count in range(3):
            self.assertEqual(reserve_leaves(right, [5, 6, 7, 9], count),
                             ("refused 8 0", [5, 6, 7, 9]))
        for count in (3, 4):
            self.assertEqual(reserve_leaves(right, [5, 6, 7, 9], count),
                             ("reserved 0", [8, 87, 32, 9]))
        for count in range(5):
            self.assertEqual(reserve_leaves(Refusal(3, 0), [5, 6, 7, 9],
                                            count),
                             ("refused 3 0", [5, 6, 7, 9]))

    def test_buffers(self):
        here = found(G.encode())
        lent = [1] * 8, [2] * 8, bytearray(b"\7" * 87)
        self.assertEqual(search_leaves(here, *lent),
                         ("unsafe 27 0", [0] * 8, [0] * 8,
                          bytearray(G_SHEET + b"\7" * 60)))
        for which in range(3):
            short = [part[:len(part) - (which == number)]
                     for number, part in enumerate(lent)]
            self.assertEqual(search_leaves(here, *short),
                             ("refused 8 0", *short))
            longer = [part + part[:5 * (which == number)]
                      for number, part in enumerate(lent)]
            said, *left = search_leaves(here, *longer)
            self.assertEqual(said, "unsafe 27 0")
            self.assertEqual(list(map(len, left)), list(map(len, longer)))
            self.assertEqual(left[which][-5:], longer[which][-5:])
        self.assertEqual(search_leaves(Refusal(3, 0), [], [], bytearray()),
                         ("refused 3 0", [], [], bytearray()))

    def test_every_model(self):
        """What is reserved is enough, and one less of anything is not. The
        sheet that is left passes."""
        for label, text, meant in models():
            if meant.reservation.entries > 256 or meant.trials > 4096:
                continue
            here = known()[text]
            entries, size, _ = meant.reservation
            said, *_, buffer = search_leaves(
                here, [3] * entries, [3] * entries, bytearray(size))
            verdict, length, trials = said.split(" ")
            self.assertEqual((verdict, int(trials)),
                             (meant.verdict, meant.trials), label)
            self.assertEqual(answer(text, bytes(buffer[:int(length)])),
                             HOLDS[meant.verdict], label)
            for given in ((entries - 1, entries, size),
                          (entries, entries - 1, size),
                          (entries, entries, size - 1)):
                lent = ([4] * given[0], [5] * given[1],
                        bytearray(b"\6" * given[2]))
                self.assertEqual(search_leaves(here, *lent),
                                 ("refused 8 0", *lent), label)


class Wrong(unittest.TestCase):
    """A library with one wrong part is compared as a built one is; each part
    names groups of the corpus that show it up."""

    @classmethod
    def setUpClass(cls):
        cls.groups = {}
        for label, text in texts():
            cls.groups.setdefault(label.split(":")[0], []).append(
                (label, text))

    def is_shown(self, group, **parts):
        library = StandIn(known(), **parts)
        rng = random.Random(1)
        differences = Differences()
        with redirect_stdout(io.StringIO()):
            for label, text in self.groups[group]:
                compare_all(rng, library, label, text, known()[text],
                            differences)
                if differences.count:
                    return True
        return False

    def assert_shown(self, kind, parts, *groups):
        for part in parts:
            for group in groups:
                self.assertTrue(self.is_shown(group, **{kind: part}),
                                (group, part))

    def test_right_ones_pass(self):
        for group in self.groups:
            self.assertFalse(self.is_shown(
                group, reserves=wrong.added_up,
                returns=wrong_trials.each_member,
                leaves_entries=wrong_calls.three_asked_for,
                leaves_buffers=wrong_calls.lent_as_reserved), group)

    def test_states_and_words(self):
        self.assert_shown("reserves", [
            wrong.states_alone, wrong.words_alone, wrong.states_and_words,
            wrong.one_state_fewer, wrong.one_state_more,
            wrong.names_for_states, wrong.one_trial_more,
            wrong.one_trial_fewer, wrong.one_word_more],
            "worked", "names", "unequal_commands", "nothing_starts")
        for part in (wrong.in_16_bits, wrong.at_most_65535):
            self.assert_shown("reserves", [part], "few_states",
                              "reached_by_steps", "greatest")
        self.assert_shown("reserves", [wrong.in_24_bits], "greatest")

    def test_words_of_a_command(self):
        self.assert_shown("reserves", [
            wrong.stars_for_words, wrong.square_of_stars,
            wrong.twice_the_stars, wrong.last_word_left_out,
            wrong.one_bit_more],
            "one_command_of_stars", "unequal_commands")
        self.assert_shown("reserves", [
            wrong.commands_alone, wrong.one_more_than_stars,
            wrong.in_batches],
            "worked", "one_command_of_stars", "unequal_commands")
        self.assert_shown("reserves", [
            wrong.words_to_63, wrong.words_to_127, wrong.words_in_a_byte],
            "one_command_of_stars", "where_stars_stand", "greatest")
        self.assert_shown("reserves", [wrong.no_words_without_stars],
                          "worked", "commands_without_stars", "all_states")

    def test_sum_over_commands(self):
        self.assert_shown("reserves", [
            wrong.product, wrong.most_words_alone, wrong.most_words_for_all,
            wrong.first_words_for_all],
            "worked", "unequal_commands", "few_states")
        self.assert_shown("reserves", [
            wrong.without_first_command, wrong.without_last_command,
            wrong.a_command_more, wrong.first_command_twice],
            "worked", "commands_without_stars", "unequal_commands")
        self.assert_shown("reserves", [wrong.fifteen_commands],
                          "commands_without_stars", "unequal_commands",
                          "greatest")
        self.assert_shown("reserves", [wrong.equal_ones_once],
                          "commands_without_stars", "unequal_commands",
                          "all_states", "greatest")

    def test_stars_of_one_command(self):
        self.assert_shown("reserves", [wrong.last_bits_forgotten],
                          "worked", "names", "unequal_commands")
        self.assert_shown("reserves", map(wrong.bits_forgotten, range(16)),
                          "unequal_commands", "greatest")

    def test_stars_of_one_place(self):
        self.assert_shown("reserves", [
            wrong.without_inside, wrong.without_outside, wrong.without_tests,
            wrong.without_do, wrong.without_else, wrong.without_values,
            wrong.without_conditions, wrong.without_row_do,
            wrong.without_row_else],
            "where_stars_stand", "a_star_in_one_place")

    def test_entries(self):
        self.assert_shown("reserves", [
            wrong.one_entry_more, wrong.one_entry_fewer, wrong.both_tables,
            wrong.shared_alone, wrong.row_alone, wrong.bits_of_states,
            wrong.twice_the_names, wrong.always_4096],
            "worked", "names", "few_states")
        self.assert_shown("reserves", [wrong.at_least_8],
                          "names", "few_states", "all_states")
        self.assert_shown("reserves", [wrong.below_4096],
                          "names", "few_states", "greatest")

    def test_bytes(self):
        self.assert_shown("reserves", [
            wrong.without_7, wrong.one_byte_below_10_each,
            wrong.one_byte_more, wrong.one_byte_fewer, wrong.a_step_more,
            wrong.a_step_fewer, wrong.four_to_a_step, wrong.of_the_map,
            wrong.always_40967], "worked", "names", "few_states")
        self.assert_shown("reserves", [wrong.below_32768],
                          "names", "few_states", "greatest")

    def test_order_of_numbers(self):
        self.assert_shown("reserves", [
            wrong.bytes_first, wrong.trials_first, wrong.bytes_last,
            wrong.entries_last], "worked", "names", "unequal_commands")

    def test_trials_of_safe_models(self):
        self.assert_shown("returns", [
            wrong_trials.never, wrong_trials.members_alone,
            wrong_trials.without_first_command,
            wrong_trials.without_last_command, wrong_trials.one_more,
            wrong_trials.one_fewer, wrong_trials.a_state_more,
            wrong_trials.a_state_fewer, wrong_trials.into_the_map,
            wrong_trials.states_added],
            "worked", "unequal_commands", "few_states", "all_states",
            "greatest")
        self.assert_shown("returns", [
            wrong_trials.commands_alone, wrong_trials.in_batches],
            "worked", "unequal_commands", "one_command_of_stars")
        self.assert_shown("returns", [
            wrong_trials.of_all_states, wrong_trials.words_at_a_state],
            "worked", "unequal_commands", "few_states", "reached_by_steps")
        self.assert_shown("returns", [
            wrong_trials.of_kept_states, wrong_trials.of_start_states],
            "worked", "reached_by_steps")
        self.assert_shown("returns", [
            wrong_trials.words_below_64, wrong_trials.in_a_byte],
            "one_command_of_stars", "unequal_commands", "where_stars_stand")
        self.assert_shown("returns", [wrong_trials.fifteen_commands],
                          "commands_without_stars", "unequal_commands")
        for part in (wrong_trials.in_16_bits, wrong_trials.at_most_65535):
            self.assert_shown("returns", [part], "reached_by_steps",
                              "greatest")
        self.assert_shown("returns", [wrong_trials.in_24_bits], "greatest")

    def test_trials_of_other_models(self):
        self.assert_shown("returns", [
            wrong_trials.until_the_break, wrong_trials.before_the_break,
            wrong_trials.steps_though_unsafe], "worked", "breaks")
        self.assert_shown("returns", [
            wrong_trials.most_though_unsafe,
            wrong_trials.words_though_unsafe],
            "worked", "breaks", "greatest")
        self.assert_shown("returns", [
            wrong_trials.most_though_void, wrong_trials.words_though_void,
            wrong_trials.states_though_void, wrong_trials.one_though_void],
            "worked", "nothing_starts", "greatest")

    def test_length_and_trials_in_one_number(self):
        self.assert_shown("packs", [
            wrong_trials.trials_first, wrong_trials.trials_alone],
            "worked", "few_states", "nothing_starts", "breaks")
        self.assert_shown("packs", [
            wrong_trials.length_alone, wrong_trials.sum_of_both,
            wrong_trials.trials_from_byte_2, wrong_trials.trials_from_byte_4,
            wrong_trials.by_65535], "worked", "few_states", "all_states")
        self.assert_shown("packs", [wrong_trials.in_24_bits_of_rest],
                          "one_command_of_stars", "few_states", "all_states")
        self.assert_shown("packs", [wrong_trials.in_40_bits], "greatest")

    def test_entries_lent(self):
        self.assert_shown("leaves_entries", [
            wrong_calls.none_asked_for, wrong_calls.one_asked_for,
            wrong_calls.two_asked_for, wrong_calls.four_asked_for,
            wrong_calls.five_asked_for, wrong_calls.as_many_as_are_lent],
            "worked", "names")
        self.assert_shown("leaves_entries", [
            wrong_calls.eight_before_the_text, wrong_calls.place_forgotten,
            wrong_calls.eight_for_the_text,
            wrong_calls.cleared_by_refusals], "refused", "lengths")
        self.assert_shown("leaves_entries", [
            wrong_calls.eight_before_a_long_text], "refused")
        self.assert_shown("leaves_entries", [
            wrong_calls.trials_in_the_answer,
            wrong_calls.entries_in_the_answer, wrong_calls.place_of_eight,
            wrong_calls.fourth_cleared, wrong_calls.rest_cleared,
            wrong_calls.behind_cleared, wrong_calls.cleared_by_eight,
            wrong_calls.filled_by_eight, wrong_calls.trials_unwritten],
            "worked", "names")

    def test_buffers_lent(self):
        self.assert_shown("leaves_buffers", [
            wrong_calls.an_entry_more_first,
            wrong_calls.an_entry_more_second, wrong_calls.a_byte_more,
            wrong_calls.an_entry_fewer_first,
            wrong_calls.an_entry_fewer_second, wrong_calls.a_byte_fewer,
            wrong_calls.room_for_this_sheet,
            wrong_calls.tables_cleared_by_eight], "worked", "names", "breaks")
        self.assert_shown("leaves_buffers", [
            wrong_calls.eight_before_the_text_of_a_search],
            "refused", "lengths")


if __name__ == "__main__":
    unittest.main()
