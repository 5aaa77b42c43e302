"""The corpus and the random texts: that they are what their labels say."""

import unittest
from collections import Counter

from corpora.texts import corpus
from inputs.feed import packed
from inputs.random_texts import random_texts
from reader.layout import line


def outcome(text):
    """`model`, or the number of the refusal."""
    words = line(text).split()
    return "model" if words[0] == "model" else words[1]


class Corpus(unittest.TestCase):
    @classmethod
    def setUpClass(cls):
        cls.texts = corpus()

    def test_size(self):
        self.assertGreaterEqual(len(self.texts), 450)
        self.assertLess(sum(len(text) for _, text in self.texts), 1_200_000)

    def test_all_differ(self):
        self.assertEqual(len({text for _, text in self.texts}),
                         len(self.texts))
        self.assertEqual(len({label for label, _ in self.texts}),
                         len(self.texts))

    def test_same_again(self):
        self.assertEqual(corpus(), self.texts)

    def test_labels_that_say_the_answer(self):
        said = Counter()
        for label, text in self.texts:
            _, arrow, meant = label.rpartition(" -> ")
            if arrow:
                whole = meant.startswith("refused ")
                self.assertEqual(line(text) if whole else outcome(text),
                                 meant, label)
                said[meant.split(" ")[1] if whole else meant] += 1
        for meant in ("model", "1", "2", "3", "4", "5", "6", "7"):
            self.assertGreaterEqual(said[meant], 5, meant)


class Packed(unittest.TestCase):
    def test_form(self):
        self.assertEqual(packed([b"", b"a\nb", b"\xff"]),
                         b"0\n\n3\na\nb\n1\n\xff\n")


class RandomTexts(unittest.TestCase):
    def test_seed(self):
        self.assertEqual(random_texts(30, 5), random_texts(30, 5))
        self.assertNotEqual(random_texts(30, 5), random_texts(30, 6))

    def test_labels(self):
        met = Counter()
        for label, text in random_texts(1500, 11):
            answer = outcome(text)
            if label == "whole" or label.startswith("at the limit"):
                self.assertEqual(answer, "model", label)
            elif label.endswith("limit of length"):
                self.assertEqual(answer, "1", label)
            elif "over the limit" in label:
                self.assertEqual(answer, "7", label)
            met[answer] += 1
            if label.startswith("reserved words"):
                self.assertNotEqual(answer, "model", label)
        for answer in ("model", "1", "2", "3", "4", "5", "6", "7"):
            self.assertGreater(met[answer], 0, answer)


if __name__ == "__main__":
    unittest.main()
