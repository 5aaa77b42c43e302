"""Which programs are wrong, and which entries of a corpus show it."""

import io
import random
from contextlib import redirect_stdout

from comparing.differences import Differences


def programs_in(modules, right):
    """Names and classes of all programs that are a right one with a part
    exchanged, and of the right one."""
    return {name: program for module in modules
            for name, program in vars(module).items()
            if isinstance(program, type) and issubclass(program, right)}


def by_group(*compared):
    """Entries by the groups that their labels begin with. Each corpus comes
    with how its entries are compared, and so does each entry here."""
    found = {}
    for compare, corpus in compared:
        for entry in corpus:
            found.setdefault(entry[0].split(":")[0], []).append(
                (compare, entry))
    return found


def shows(group, program):
    """Whether a group has an entry by which a program differs."""
    rng = random.Random(1)
    differences = Differences()
    with redirect_stdout(io.StringIO()):
        for compare, entry in group:
            compare(rng, program, *entry, differences)
            if differences.count:
                return True
    return False


def compared_at_random(compare, program, texts):
    """What is met and what differs, no further than to the first
    difference."""
    rng = random.Random(3)
    differences = Differences()
    with redirect_stdout(io.StringIO()):
        for text in texts:
            compare(rng, program, text, differences)
            if differences.count:
                break
    return differences


class AllDiffer:
    """Tests of a corpus whose entries begin with a label, to be mixed into a
    class of tests; `entries` gives them, and `corpus` makes them anew."""

    def test_all_differ(self):
        self.assertEqual(len({entry[0] for entry in self.entries()}),
                         len(self.entries()))
        self.assertEqual(len({entry[1:] for entry in self.entries()}),
                         len(self.entries()))

    def test_same_again(self):
        self.assertEqual(self.corpus(), self.entries())


class Told:
    """Tests of wrong programs, each named with groups that tell it from the
    right one; to be mixed into a class of tests. `programs` has all by their
    names, also some that are right."""

    def test_each_is_named(self):
        named = [name for names, _ in self.shown_by for name in names.split()]
        self.assertEqual(sorted(named),
                         sorted(self.programs.keys() - self.right))
        self.assertGreaterEqual(len(named), self.least)

    def test_right_one_passes(self):
        for name, group in self.groups().items():
            self.assertFalse(shows(group, self.right_one()), name)

    def test_wrong_ones_are_shown(self):
        for names, groups in self.shown_by:
            for name in names.split():
                for group in groups.split():
                    with self.subTest(program=name, group=group):
                        self.assertTrue(shows(self.groups()[group],
                                              self.programs[name]()))
