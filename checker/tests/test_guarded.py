"""Guarded memory: that what is lent can be used, and that a call which goes
beyond it ends its process."""

import ctypes
import os
import resource
import signal
import unittest

from tests.in_memory import InMemory
from tests.portion_program import Program
from comparing.guarded import PAGE, Guarded
from comparing.library import Library
from evidence.calls_player import CALLS
from inputs.cases import G, G_SHEET, H, map_for

SIZES = 1, 2, 16, 87, PAGE - 1, PAGE, PAGE + 1, 2 * PAGE
TRIES = 40


def ending(action):
    """The signal that ends a process which does this. It is 0 where the
    process comes to its end, and below 0 where it fails otherwise."""
    child = os.fork()
    if not child:
        try:
            resource.setrlimit(resource.RLIMIT_CORE, (0, 0))
            action()
            os._exit(0)
        finally:
            os._exit(1)
    _, status = os.waitpid(child, 0)
    return -os.waitstatus_to_exitcode(status)


def read_at(address):
    ctypes.string_at(address, 1)


def write_at(address):
    ctypes.memset(address, 7, 1)


class Memory(unittest.TestCase):
    def setUp(self):
        self.memory = Guarded()

    def test_contents(self):
        for size in SIZES * 2:
            for at_end in (False, True):
                data = os.urandom(size)
                address = self.memory.put(data, True, at_end)
                self.assertEqual(ctypes.string_at(address, size), data)
                ctypes.memset(address, 9, size)
                self.assertEqual(ctypes.string_at(address, size),
                                 b"\x09" * size)

    def test_inside(self):
        for size in SIZES:
            for at_end in (False, True):
                for writable in (False, True):
                    address = self.memory.put(bytes(size), writable, at_end)
                    for place in (address, address + size - 1):
                        self.assertEqual(ending(lambda: read_at(place)), 0)
                        self.assertEqual(
                            ending(lambda: write_at(place)),
                            0 if writable else signal.SIGSEGV)

    def test_behind(self):
        for size in SIZES:
            behind = self.memory.put(bytes(size), True, True) + size
            for touch in (read_at, write_at):
                self.assertEqual(ending(lambda: touch(behind)),
                                 signal.SIGSEGV)

    def test_before(self):
        for size in SIZES:
            before = self.memory.put(bytes(size), True, False) - 1
            for touch in (read_at, write_at):
                self.assertEqual(ending(lambda: touch(before)),
                                 signal.SIGSEGV)

    def test_nothing(self):
        """Nothing at all is lent at a place that cannot be touched."""
        for at_end in (False, True):
            address = self.memory.put(b"", True, at_end)
            self.assertEqual(ending(lambda: read_at(address)),
                             signal.SIGSEGV)

    def test_alignment(self):
        """Whatever is lent in whole numbers stands as they ask."""
        for size in (8, 16, 88, PAGE + 8):
            for at_end in (False, True):
                self.assertEqual(self.memory.put(bytes(size), True,
                                                 at_end) % 8, 0)


class Touching(InMemory):
    """A library in which one function touches a place before it answers: so
    far from the beginning of an argument, by its length."""

    def __init__(self, name, touch, which, offset):
        super().__init__()
        right = getattr(self, f"nutseason_{name}")

        def wrong(*passed):
            touch(passed[which] + offset(passed[which + 1]))
            return right(*passed)
        setattr(self, f"nutseason_{name}", type(right)(wrong))


class Lent(unittest.TestCase):
    """Every buffer of every call stands in such memory."""

    text = H.encode()

    def calls(self):
        """Names, a call, and where the call has its buffers: the place among
        the arguments, the width of a number, and whether it is lent to be
        written."""
        tables = [0] * 8, [0] * 8
        room = bytearray(87)
        sheet = map_for(H, {1, 3, 5})
        return (
            ("read", lambda one: one.read(self.text), ((0, 1, False),)),
            ("test", lambda one: one.test(self.text, sheet),
             ((0, 1, False), (2, 1, False))),
            ("reserve", lambda one: one.reserve(self.text, [0] * 3, 3),
             ((0, 1, False), (2, 8, True))),
            ("search", lambda one: one.search(self.text, *tables, room),
             ((0, 1, False), (2, 2, True), (4, 2, True), (6, 1, True))),
            ("open", lambda one: one.open(self.text, *tables),
             ((0, 1, False), (2, 2, True), (4, 2, True))),
            ("portion", lambda one: one.portion(112, 1, self.text, *tables),
             ((2, 1, False), (4, 2, True), (6, 2, True))),
            ("met", lambda one: one.met(112, [1], self.text, *tables),
             ((2, 1, False), (4, 2, False), (6, 2, False))),
            ("finish", lambda one: one.finish(112, self.text, *tables, room),
             ((1, 1, False), (3, 2, True), (5, 2, True), (7, 1, True))),
            ("reached", lambda one: one.reached(self.text, sheet, [1]),
             ((0, 1, False), (2, 1, False))),
            ("steps", lambda one: one.steps(G.encode(), G_SHEET,
                                            [(0, 0, 0)]),
             ((0, 1, False), (2, 1, False), (4, 4, True))),
            ("burst", lambda one: one.burst(G.encode(), G_SHEET,
                                            [(0, 0, 0)], 0, 1),
             ((0, 1, False), (2, 1, False), (4, 4, True))),
            ("counts", lambda one: one.counts(G.encode(), G_SHEET,
                                              [(0, 0, 0)], [0] * 16),
             ((0, 1, False), (2, 1, False), (4, 4, True), (6, 2, True))),
            *((call, lambda one, call=call: one.play(
                call, G.encode(), G_SHEET, [0, 1], 2),
               ((0, 1, False), (2, 1, False), (4, 8, True)))
              for call in CALLS),
        )

    def tried(self, loaded, call):
        """Often enough for both ways to stand in memory."""
        library = Library("", lambda path: loaded)
        return ending(lambda: [call(library) for _ in range(TRIES)])

    def test_right_ones_go_on(self):
        for name, call, _ in self.calls():
            self.assertEqual(self.tried(InMemory(Program()), call), 0, name)

    def test_beside(self):
        for name, call, buffers in self.calls():
            for which, width, _ in buffers:
                for offset in (lambda count: count * width, lambda _: -1):
                    for touch in (read_at, write_at):
                        loaded = Touching(name, touch, which, offset)
                        self.assertEqual(self.tried(loaded, call),
                                         signal.SIGSEGV, (name, which))

    def test_not_to_be_written(self):
        for name, call, buffers in self.calls():
            for which, _, written in buffers:
                loaded = Touching(name, write_at, which, lambda count: 0)
                self.assertEqual(self.tried(loaded, call),
                                 0 if written else signal.SIGSEGV,
                                 (name, which))


if __name__ == "__main__":
    unittest.main()
