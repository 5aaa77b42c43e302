"""Lines, columns and excerpts of texts."""

import unittest

from places import excerpt, line_and_column


class Places(unittest.TestCase):
    def test_line_and_column(self):
        text = b"ab\n\ncd"
        places = [line_and_column(text, place) for place in range(7)]
        self.assertEqual(places, [(1, 1), (1, 2), (1, 3), (2, 1), (3, 1),
                                  (3, 2), (3, 3)])

    def test_carets_stand_under_the_token(self):
        """However many bytes are escaped or cut away before it."""
        for before in (b"", b"a ", b"\t\x80 ", b"a " * 100, b"\xff\r" * 100):
            for token in (b"word", b"\x00", b"\t"):
                text = b"first\n" + before + token + b" b" * 100 + b"\nlast"
                found = excerpt(text, 6 + len(before), len(token))
                under = [shown for shown, caret
                         in zip(found.line, found.carets) if caret == "^"]
                self.assertEqual("".join(under),
                                 {b"word": "word", b"\x00": "\\x00",
                                  b"\t": "\\t"}[token])
                self.assertEqual(found.line.startswith("..."),
                                 len(before) > 40)
                self.assertTrue(found.line.endswith("..."))

    def test_a_token_is_cut_with_its_line(self):
        found = excerpt(b"a" * 100 + b" b", 0, 100)
        self.assertEqual(found.line, "a" * 60 + "...")
        self.assertEqual(found.carets, "^" * 60)

    def test_the_end(self):
        found = excerpt(b"shared\nab", 9, 0)
        self.assertEqual((found.line, found.carets), ("ab", "  ^"))


if __name__ == "__main__":
    unittest.main()
