"""The bytes of a sheet: what they hold, or their first refusal."""

from dataclasses import dataclass

from reader.model import Refusal

LONGEST_SHEET = 65536


@dataclass(frozen=True)
class Map:
    members: frozenset


@dataclass(frozen=True)
class Trace:
    start: int
    steps: tuple


def record(kind, payload):
    return (len(payload).to_bytes(4, "little") + kind.to_bytes(2, "little")
            + bytes(payload))


def header(table):
    return record(1, [table.shared, table.names - table.shared,
                      table.commands])


def map_length(states):
    return max(1, states // 8)


def map_sheet(table, members):
    bits = sum(1 << state for state in members)
    payload = bits.to_bytes(map_length(table.states), "little")
    return header(table) + record(2, payload)


def step_record(command, word, after):
    return record(4, bytes([command, word]) + after.to_bytes(2, "little"))


def trace_sheet(table, start, steps):
    return (header(table) + record(3, start.to_bytes(2, "little"))
            + b"".join(step_record(*step) for step in steps))


def payload_at(sheet, place, kind, length):
    """The payload of the record that stands there, None if there is none of
    this kind and length."""
    whole = sheet[place:place + 6 + length]
    payload = whole[6:]
    if len(payload) != length or whole != record(kind, payload):
        return None
    return payload


def contents(sheet, table):
    """A Map or a Trace, or the Refusal that comes first."""
    if len(sheet) > LONGEST_SHEET:
        return Refusal(9, LONGEST_SHEET)
    first = payload_at(sheet, 0, 1, 3)
    if first is None:
        return Refusal(9, 0)
    if sheet[:9] != header(table):
        return Refusal(10, 0)
    size = map_length(table.states)
    payload = payload_at(sheet, 9, 2, size)
    if payload is not None:
        bits = int.from_bytes(payload, "little")
        if bits >> table.states:
            return Refusal(9, 9)
        if len(sheet) > 15 + size:
            return Refusal(9, 15 + size)
        return Map(frozenset(state for state in range(table.states)
                             if bits >> state & 1))
    payload = payload_at(sheet, 9, 3, 2)
    if payload is None:
        return Refusal(9, 9)
    start = int.from_bytes(payload, "little")
    if start >= table.states:
        return Refusal(10, 9)
    steps = []
    for place in range(17, len(sheet), 10):
        payload = payload_at(sheet, place, 4, 4)
        if payload is None:
            return Refusal(9, place)
        command, word = payload[:2]
        after = int.from_bytes(payload[2:], "little")
        if (command >= table.commands or word >= table.words(command)
                or after >= table.states):
            return Refusal(10, place)
        steps.append((command, word, after))
    return Trace(start, tuple(steps))
