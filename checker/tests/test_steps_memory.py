"""How steps, counts and numbers stand in memory when a library is called:
byte by byte, as they were worked out by hand."""

import ctypes
import unittest

from tests.in_memory import InMemory
from comparing.library import Library

LARGEST = (1 << 64) - 1


def library_with(name, call):
    """A library in which one function is this one."""
    loaded = InMemory()
    whole = getattr(loaded, f"nutseason_{name}")
    setattr(loaded, f"nutseason_{name}", type(whole)(call))
    return Library("", lambda path: loaded)


class Memory(unittest.TestCase):
    def test_steps(self):
        """Command, choice word, then the state with its low byte first."""
        met = []

        def call(text, text_len, sheet, sheet_len, places, count):
            met.append((ctypes.string_at(text, text_len),
                        ctypes.string_at(sheet, sheet_len),
                        ctypes.string_at(places, 4 * count)))
            ctypes.memmove(places + 4, b"\x0f\xff\x34\x12", 4)
            return ord("n") + 256 * 513
        places = [(1, 2, 3), (4, 5, 6), (15, 254, 4095)]
        said = library_with("steps", call).steps(b"text", b"sheet", places)
        self.assertEqual(met, [(b"text", b"sheet", b"\x01\x02\x03\x00"
                                b"\x04\x05\x06\x00\x0f\xfe\xff\x0f")])
        self.assertEqual(said, "steps 513")
        self.assertEqual(places, [(1, 2, 3), (15, 255, 4660),
                                  (15, 254, 4095)])

    def test_burst(self):
        """Command and width come last, each as a whole number."""
        met = []

        def call(text, text_len, sheet, sheet_len, places, count, *numbers):
            met.append((count, *numbers))
            return ord("b") + 256 * (300 + 65536 * 2457)
        library = library_with("burst", call)
        for numbers in ((0, 1), (1, 0), (LARGEST, 1 << 63),
                        ((1 << 32) + 1, LARGEST)):
            self.assertEqual(library.burst(b"", b"", [(0, 0, 0)] * 2,
                                           *numbers), "burst 300 2457")
            self.assertEqual(met.pop(), (2, *numbers))

    def test_counts(self):
        met = []

        def call(text, text_len, sheet, sheet_len, places, count, entries,
                 many):
            met.append((count, many, ctypes.string_at(entries, 2 * many)))
            ctypes.memmove(entries + 2, b"\x97\x19", 2)
            return ord("n") + 256 * 7
        entries = [1, 2, 770]
        said = library_with("counts", call).counts(b"", b"", [], entries)
        self.assertEqual(met, [(0, 3, b"\x01\x00\x02\x00\x02\x03")])
        self.assertEqual((said, entries), ("steps 7", [1, 6551, 770]))

    def test_nothing(self):
        """A list without places is handed over with and without a
        pointer."""
        met = set()

        def call(text, text_len, sheet, sheet_len, places, count):
            met.add((places is None, count))
            return ord("n")
        library = library_with("steps", call)
        for _ in range(40):
            self.assertEqual(library.steps(b"t", b"s", []), "steps 0")
        self.assertEqual(met, {(True, 0), (False, 0)})


if __name__ == "__main__":
    unittest.main()
