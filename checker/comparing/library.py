"""The functions of the libraries for C, called in this process."""

import ctypes
import random
from array import array
from itertools import starmap
from struct import Struct

from comparing.guarded import Guarded
from comparing.told import (player_told, question_told, read_told,
                            reserve_told, search_told, steps_told, test_told)
from evidence.calls_player import CALLS

NUMBER = [ctypes.c_uint64]
# A pointer, and how many entries there are.
LENT = [ctypes.c_void_p, ctypes.c_size_t]
MOST_LENT = 4
# A place of a list of steps: command, choice word, state after.
STEP = Struct("<BBH")


class Library:
    """A shared object that has all functions. Answers are put in the words of
    the checker, but for positions, which are to be handed back.

    Buffers are lent in guarded memory. A list of 16-bit numbers, an array or
    a bytearray may be written, and holds afterwards what the call left; a
    tuple of such numbers or bytes can only be read there."""

    def __init__(self, path, load=ctypes.CDLL):
        loaded = load(path)
        self._read = typed(loaded.nutseason_read, LENT)
        self._test = typed(loaded.nutseason_test, LENT * 2)
        self._search = typed(loaded.nutseason_search, LENT * 4)
        self._reserve = typed(loaded.nutseason_reserve, LENT * 2)
        self._open = typed(loaded.nutseason_open, LENT * 3)
        self._portion = typed(loaded.nutseason_portion, NUMBER * 2 + LENT * 3)
        self._met = typed(loaded.nutseason_met, NUMBER * 2 + LENT * 3)
        self._finish = typed(loaded.nutseason_finish, NUMBER + LENT * 4)
        self._reached = typed(loaded.nutseason_reached, LENT * 2 + NUMBER)
        self._player = {call: typed(getattr(loaded, f"nutseason_{call}"),
                                    LENT * 3) for call in CALLS}
        self._steps = typed(loaded.nutseason_steps, LENT * 3)
        self._burst = typed(loaded.nutseason_burst, LENT * 3 + NUMBER * 2)
        self._counts = typed(loaded.nutseason_counts, LENT * 4)
        self._places = [Guarded() for _ in range(MOST_LENT)]
        self._rng = random.Random(0)

    def read(self, text):
        return read_told(self._lent(self._read, text))

    def test(self, text, sheet):
        return test_told(self._lent(self._test, text, sheet))

    def search(self, text, first, second, sheet):
        """The verdict, the sheet's length and the trials, or a refusal."""
        return search_told(self._lent(self._search, text, first, second,
                                      sheet))

    def reserve(self, text, memory, count):
        """Whether it is reserved, with the rest of the answer, or a
        refusal."""
        return reserve_told(self._with_entries(self._reserve, memory, count,
                                               text))

    def open(self, text, first, second):
        """A position or a refusal, as a number."""
        return self._lent(self._open, text, first, second)

    def portion(self, position, states, text, first, second):
        """The same."""
        return self._lent(
            lambda *handed: self._portion(position, states, *handed),
            text, first, second)

    def met(self, position, states, text, first, second):
        """What is answered to the question of each state."""
        return self._lent(
            lambda *handed: [question_told(self._met(position, state,
                                                     *handed))
                             for state in states],
            text, tuple(first), tuple(second))

    def finish(self, position, text, first, second, sheet):
        """As a search."""
        return search_told(self._lent(
            lambda *handed: self._finish(position, *handed),
            text, first, second, sheet))

    def reached(self, text, sheet, states):
        """What is answered to the question of each state."""
        return self._lent(
            lambda *handed: [question_told(self._reached(*handed, state))
                             for state in states],
            text, sheet)

    def play(self, call, text, sheet, memory, count):
        """What the player's function of that name answers."""
        return player_told(self._with_entries(self._player[call], memory,
                                              count, text, sheet))

    def steps(self, text, sheet, places):
        """How many steps there are. The places hold afterwards what the call
        left there."""
        return self._with_places(self._steps, text, sheet, places)

    def burst(self, text, sheet, places, command, width):
        """The most times, and the place."""
        return self._with_places(
            lambda *handed: self._burst(*handed, command, width), text, sheet,
            places)

    def counts(self, text, sheet, places, entries):
        """As `steps`; the counts are in the entries afterwards."""
        return self._with_places(self._counts, text, sheet, places, entries)

    def _with_places(self, call, text, sheet, places, *others):
        """What a call answers that is handed a list of steps."""
        lent = array("I")
        lent.frombytes(b"".join(starmap(STEP.pack, places)))
        said = self._lent(call, text, sheet, lent, *others)
        places[:] = STEP.iter_unpack(lent.tobytes())
        return steps_told(said)

    def _with_entries(self, call, memory, count, *others):
        """What a call answers that is handed these, and then the first
        entries of a list of 64-bit numbers, so many. They hold afterwards
        what the call left there."""
        entries = array("Q", memory[:count])
        said = self._lent(call, *others, entries)
        memory[:count] = entries
        return said

    def _lent(self, call, *buffers):
        """What a call answers that is handed these, each as a pointer and a
        length."""
        handed = []
        for place, buffer in zip(self._places, buffers):
            handed += self._put(place, buffer), len(buffer)
        said = call(*handed)
        for address, buffer in zip(handed[::2], buffers):
            take_back(address, buffer)
        return said

    def _put(self, place, buffer):
        """A pointer whose length is 0 is not followed, whatever it is."""
        at_end = self._rng.random() < 0.5
        if not buffer and at_end:
            return None
        return place.put(array(code_of(buffer), buffer).tobytes(),
                         is_written(buffer), at_end)


def typed(function, arguments):
    function.argtypes = arguments
    function.restype = ctypes.c_uint64
    return function


def is_written(buffer):
    return isinstance(buffer, (list, array, bytearray))


def code_of(buffer):
    """How wide its numbers are, as a module `array` says it."""
    if isinstance(buffer, array):
        return buffer.typecode
    return "H" if isinstance(buffer, (list, tuple)) else "B"


def take_back(address, buffer):
    if buffer and is_written(buffer):
        left = array(code_of(buffer))
        left.frombytes(ctypes.string_at(address, len(buffer) * left.itemsize))
        buffer[:] = left
