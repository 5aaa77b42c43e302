"""The functions for C of a program that works on lists, called by addresses
as those of a built library are."""

import ctypes
from array import array

from comparing.library import Library
from evidence.calls import found_in, reserve_leaves, search_leaves
from evidence.calls_player import CALLS
from evidence.reservations import reserved
from reader.model import Refusal
from reader.reading import read
from tests.burst_program import Bursts
from tests.player_program import Player
from tests.portion_program import Program, number_of, tested
from tests.stand_ins import LETTERS, number, packed

# Bytes, numbers of 16 bits and of 64, and steps of four bytes, each a pointer
# and a length; a number.
BYTES, TABLE, ENTRIES, STEPS, NUMBER = "B", "H", "Q", "I", "number"

# What each function is handed, and which of it may be written.
HANDED = {
    "read": ((BYTES,), ()),
    "test": ((BYTES, BYTES), ()),
    "reserve": ((BYTES, ENTRIES), (1,)),
    "search": ((BYTES, TABLE, TABLE, BYTES), (1, 2, 3)),
    "open": ((BYTES, TABLE, TABLE), (1, 2)),
    "portion": ((NUMBER, NUMBER, BYTES, TABLE, TABLE), (3, 4)),
    "met": ((NUMBER, NUMBER, BYTES, TABLE, TABLE), ()),
    "finish": ((NUMBER, BYTES, TABLE, TABLE, BYTES), (2, 3, 4)),
    "reached": ((BYTES, BYTES, NUMBER), ()),
    "steps": ((BYTES, BYTES, STEPS), (2,)),
    "burst": ((BYTES, BYTES, STEPS, NUMBER, NUMBER), (2,)),
    "counts": ((BYTES, BYTES, STEPS, TABLE), (2, 3)),
} | {call: ((BYTES, BYTES, ENTRIES), (2,)) for call in CALLS}


def fetched(code, address, count):
    """A buffer's numbers. One of length 0 is not looked at."""
    there = array(code)
    if count:
        there.frombytes(ctypes.string_at(address, count * there.itemsize))
    if code == STEPS:
        return [(step & 255, step >> 8 & 255, step >> 16) for step in there]
    return bytes(there) if code == BYTES else list(there)


def put_back(code, address, numbers):
    if code == STEPS:
        numbers = [command + 256 * word + 65536 * after
                   for command, word, after in numbers]
    data = array(code, numbers).tobytes()
    if data:
        ctypes.memmove(address, data, len(data))


def by_addresses(call, kinds, written):
    """The same function for addresses and lengths."""
    def called(*passed):
        rest, arguments, addresses = list(passed), [], []
        for kind in kinds:
            addresses.append(rest[0])
            if kind == NUMBER:
                arguments.append(rest.pop(0))
            else:
                address, count = rest.pop(0), rest.pop(0)
                arguments.append(fetched(kind, address, count))
        for place in written:
            if kinds[place] == BYTES:
                arguments[place] = bytearray(arguments[place])
        said = call(*arguments)
        for place in written:
            put_back(kinds[place], addresses[place], arguments[place])
        return said
    return called


def for_c(call, kinds, written):
    types = [[ctypes.c_uint64] if kind == NUMBER
             else [ctypes.c_void_p, ctypes.c_size_t] for kind in kinds]
    return ctypes.CFUNCTYPE(ctypes.c_uint64, *sum(types, []))(
        by_addresses(call, kinds, written))


class InMemory:
    """To be loaded by a Library. The functions that are not those of
    portions, of a player or of bursts are the checker's own."""

    def __init__(self, program=None, player=None, bursts=None):
        program, player = program or Program(), player or Player()
        bursts = bursts or Bursts()
        calls = {"read": read_number, "test": test_number,
                 "reserve": reserve_number, "search": search_number,
                 "open": program.open, "portion": program.portion,
                 "met": program.asked, "finish": program.finished,
                 "reached": program.asked_map, "steps": bursts.list_steps,
                 "burst": bursts.find_burst, "counts": bursts.count_steps}
        calls |= {call: getattr(player, call) for call in CALLS}
        for name, call in calls.items():
            setattr(self, f"nutseason_{name}", for_c(call, *HANDED[name]))


def library_of(program=None, player=None, bursts=None):
    loaded = InMemory(program, player, bursts)
    return Library("", lambda path: loaded)


def refusal_number(refusal):
    return refusal.number + 256 * refusal.place


def read_number(text):
    model = read(text)
    if isinstance(model, Refusal):
        return refusal_number(model)
    counts = len(model.shared), len(model.row), len(model.commands)
    return number("m", sum(count << 8 * place
                           for place, count in enumerate(counts)))


def test_number(text, sheet):
    return number_of(tested(text, sheet))


def reserve_number(text, needs):
    said, needs[:] = reserve_leaves(reserved(text), needs, len(needs))
    return ord("r") if said == "reserved 0" else number_of(said)


def search_number(text, first, second, sheet):
    said, first[:], second[:], sheet[:] = search_leaves(
        found_in(text), first, second, sheet)
    if said.startswith("refused"):
        return number_of(said)
    verdict, *numbers = said.split(" ")
    return number(LETTERS[verdict], packed(*map(int, numbers)))
