"""Refused sheets: their form, their order, numbers that the model lacks."""

from corpora.pairs_models import quiet
from evidence.sheets import header, record, step_record
from inputs.cases import G, G_SHEET, H, map_for, table_of, trace_for
from inputs.phrases import command, loop, model, stars

HEAD = G_SHEET[:9]
START = G_SHEET[9:17]
STEP = G_SHEET[17:]
H_SHEET = map_for(H, {1, 3, 5})
H_MAP = H_SHEET[9:]
WIDE = quiet(12)
# Commands with no star, one, seven, eight; states 0 to 3, of which 3 breaks.
STARRY = model("a", "x", keep=("1", "not (a and x)"), commands=[
    command("none", "a", loop(yes="x := 1")), command("one", "*", "a := 1"),
    command("seven", stars(7), "a := 1"),
    command("eight", stars(7), loop("*", "x := 1"))])


def too_long():
    long_trace = trace_for(G, 1, *[(0, 1, 3)] * 6551)
    yield "65537 bytes of nothing -> refused 9 65536", G, bytes(65537)
    yield "65536 bytes of nothing -> refused 9 0", G, bytes(65536)
    yield ("a map filled up to 65536 -> refused 9 16",
           H, H_SHEET + bytes(65536 - 16))
    yield ("a map filled up to 65537 -> refused 9 65536",
           H, H_SHEET + bytes(65537 - 16))
    yield ("a trace and a cut step up to 65536 -> refused 9 65527",
           G, long_trace + STEP[:9])
    yield ("a whole step up to 65537 -> refused 9 65536",
           G, long_trace + STEP)
    yield ("wrong counts, one byte too long -> refused 9 65536",
           G, record(1, [9, 9, 9]) + bytes(65537 - 9))
    yield ("wrong counts, as long as allowed -> refused 10 0",
           G, record(1, [9, 9, 9]) + bytes(65536 - 9))
    yield ("more than a program has room for -> refused 9 65536",
           G, long_trace + bytes(131073 - len(long_trace)))


def cut_traces():
    whole = trace_for(G, 1, (0, 1, 3), (0, 3, 7))
    ends = {17: "F", 27: "F", 37: "trace holds"}
    for length in range(len(whole) + 1):
        place = max(at for at in (0, 9, 17, 27) if at <= length)
        meant = ends.get(length, f"refused 9 {place}")
        yield f"{length} bytes -> {meant}", G, whole[:length]


def cut_maps():
    for count, text in ((3, H), (5, quiet(5))):
        whole = map_for(text, {1, 3, 5} if count == 3 else range(32))
        for length in range(len(whole) + 1):
            place = 0 if length < 9 else 9
            meant = ("safe holds" if length == len(whole)
                     else f"refused 9 {place}")
            yield (f"{length} bytes, {count} names -> {meant}",
                   text, whole[:length])
    whole = map_for(WIDE, range(4096))
    for length in (9, 14, 15, 16, 270, 271, 525, 526):
        yield (f"{length} bytes, 12 names -> refused 9 9",
               WIDE, whole[:length])


def headers():
    rest = START + STEP
    for kind in (0, 2, 3, 4, 5, 256, 257, 65535):
        yield (f"kind {kind} -> refused 9 0",
               G, record(kind, [1, 2, 1]) + rest)
    for length in (0, 1, 2, 4, 5, 259, 65539, 3 + (1 << 24)):
        yield (f"length {length} over three bytes -> refused 9 0", G,
               length.to_bytes(4, "little") + HEAD[4:] + rest)
    for payload in ([], [1, 2], [1, 2, 1, 0], [1, 2, 1, 1]):
        yield (f"{len(payload)} bytes {payload} -> refused 9 0",
               G, record(1, payload) + rest)
    for counts in ([0, 2, 1], [2, 2, 1], [1, 1, 1], [1, 3, 1], [1, 2, 0],
                   [1, 2, 2], [2, 1, 1], [0, 3, 1], [3, 0, 1], [1, 1, 2],
                   [255, 2, 1], [1, 255, 1], [1, 2, 255], [0, 0, 0]):
        for kind, body in (("trace", rest), ("map", H_MAP)):
            yield (f"counts {counts}, {kind} -> refused 10 0",
                   H, record(1, counts) + body)
    yield "9 before 10: kind -> refused 9 0", G, record(2, [9, 9, 9]) + rest
    yield "9 before 10: length -> refused 9 0", G, record(1, [9, 9]) + rest
    yield ("wrong counts, then nothing -> refused 10 0",
           G, record(1, [1, 2, 2]))
    yield ("wrong counts, then a cut record -> refused 10 0",
           G, record(1, [1, 2, 2]) + START[:3])
    yield ("wrong counts, then a wrong kind -> refused 10 0",
           G, record(1, [1, 2, 2]) + record(9, b""))
    yield ("wrong counts of which the first two bytes are there"
           " -> refused 9 0", G, record(1, [9, 9, 9])[:8])


def orders():
    records = {1: HEAD, 2: H_MAP, 3: START, 4: STEP}
    for kinds, place in (
            ((2,), 0), ((3,), 0), ((4,), 0), ((2, 1), 0), ((3, 1), 0),
            ((3, 4), 0), ((1,), 9), ((1, 1), 9), ((1, 4), 9), ((1, 1, 2), 9),
            ((1, 4, 3), 9), ((1, 2, 1), 16), ((1, 2, 2), 16), ((1, 2, 3), 16),
            ((1, 2, 4), 16), ((1, 2, 3, 4), 16), ((1, 3, 1), 17),
            ((1, 3, 2), 17), ((1, 3, 3), 17), ((1, 3, 3, 4), 17),
            ((1, 3, 4, 1), 27), ((1, 3, 4, 2), 27), ((1, 3, 4, 3), 27),
            ((1, 3, 4, 4, 3), 37), ((1, 3, 2, 4), 17)):
        yield (f"kinds {kinds} -> refused 9 {place}",
               G, b"".join(records[kind] for kind in kinds))
    for kind in (0, 5, 258, 259, 512, 65535):
        yield (f"kind {kind} for a map -> refused 9 9",
               H, HEAD + record(kind, [42]))
        yield (f"kind {kind} for a start -> refused 9 9",
               G, HEAD + record(kind, [1, 0]))
        yield (f"kind {kind} for a step -> refused 9 17",
               G, HEAD + START + record(kind, STEP[6:]))


def map_bytes():
    for count in range(13):
        size = max(1, (1 << count) // 8)
        text = quiet(count)
        head = header(table_of(text))
        for wrong in sorted({0, size - 1, size + 1, 2 * size, 3} - {size}):
            yield (f"{wrong} bytes for {count} names -> refused 9 9",
                   text, head + record(2, b"\1" * wrong))
    for extra in (b"\0", b"\xff", H_MAP, STEP, bytes(9)):
        yield (f"{extra.hex()} after the map -> refused 9 16",
               H, H_SHEET + extra)
    whole = map_for(WIDE, range(4096))
    yield "a byte after a wide map -> refused 9 527", WIDE, whole + b"\0"
    for length in (0, 2, 257, 65537, 1 << 24):
        yield (f"length {length} over one byte -> refused 9 9", H,
               HEAD + length.to_bytes(4, "little") + H_MAP[4:])


def unused_bits():
    for count, used in ((0, 1), (1, 2), (2, 4)):
        text = quiet(count)
        head = header(table_of(text))
        full = (1 << used) - 1
        yield (f"all used bits of {count} names -> safe holds",
               text, head + record(2, [full]))
        for bit in range(used, 8):
            yield (f"bit {bit} with {count} names -> refused 9 9",
                   text, head + record(2, [full | 1 << bit]))
            yield (f"bit {bit} alone with {count} names -> refused 9 9",
                   text, head + record(2, [1 << bit]))
        yield (f"unused bits and a byte more, {count} names -> refused 9 9",
               text, head + record(2, [255]) + b"\0")
    yield ("eight states use every bit -> safe holds",
           quiet(3), map_for(quiet(3), range(8)))


def start_states():
    for count in (0, 1, 2, 3, 7, 8, 9, 12):
        text = quiet(count)
        states = 1 << count
        yield (f"last of {states} -> F", text, trace_for(text, states - 1))
        for state in sorted({states, states + 1, states << 1, 32768,
                             65535}):
            yield (f"{state} of {states} -> refused 10 9",
                   text, trace_for(text, state))
    for length in (0, 1, 3, 4, 258):
        yield (f"length {length} over two bytes -> refused 9 9", G,
               HEAD + length.to_bytes(4, "little") + START[4:] + STEP)
    yield ("one byte -> refused 9 9", G, HEAD + record(3, [8]) + STEP)
    yield ("three bytes, too large -> refused 9 9",
           G, HEAD + record(3, [255, 255, 255]) + STEP)
    yield ("too large, then a cut step -> refused 10 9",
           G, trace_for(G, 8) + STEP[:5])
    yield ("too large, then a wrong kind -> refused 10 9",
           G, trace_for(G, 8) + record(1, STEP[6:]))


def step_numbers():
    good = (1, 0, 0)
    for detail, step in (
            ("command 4 of 4", (4, 0, 0)), ("command 255", (255, 0, 0)),
            ("word 1 of no star", (0, 1, 0)), ("word 128 of no star",
                                               (0, 128, 0)),
            ("word 2 of one star", (1, 2, 0)), ("word 255 of one star",
                                                (1, 255, 0)),
            ("word 128 of seven stars", (2, 128, 0)),
            ("word 255 of seven stars", (2, 255, 0)),
            ("state 4 of 4", (0, 0, 4)), ("state 256", (0, 0, 256)),
            ("state 65535", (3, 255, 65535)),
            ("all three", (4, 1, 4))):
        for ahead in (0, 1, 3):
            steps = [good] * ahead + [step]
            yield (f"{detail} after {ahead} steps"
                   f" -> refused 10 {17 + 10 * ahead}",
                   STARRY, trace_for(STARRY, 0, *steps))
    for step in ((3, 255, 2), (2, 127, 1), (1, 1, 1), (0, 0, 0)):
        yield (f"within its command: {step} -> F",
               STARRY, trace_for(STARRY, 0, step))


def step_bytes():
    whole = HEAD + START
    for length in (0, 1, 3, 5, 260, 4 + (1 << 16)):
        yield (f"length {length} over four bytes -> refused 9 17",
               G, whole + length.to_bytes(4, "little") + STEP[4:])
    for payload in ([0, 3, 7], [0, 3, 7, 0, 0], []):
        yield (f"{len(payload)} bytes -> refused 9 17",
               G, whole + record(4, payload))
    unknown = step_record(9, 9, 9)
    yield ("9 before 10 at a step: kind -> refused 9 17",
           G, whole + record(3, unknown[6:]))
    yield ("9 before 10 at a step: length -> refused 9 17",
           G, whole + record(4, unknown[6:9]))
    yield ("9 before 10 at a step: cut -> refused 9 17",
           G, whole + unknown[:9])
    yield ("10 at a step, 9 at the next -> refused 10 17",
           G, whole + unknown + STEP[:7])
    yield ("9 at a step, 10 at the next -> refused 9 17",
           G, whole + record(5, STEP[6:]) + unknown)
    yield ("10 at two steps -> refused 10 27",
           G, whole + STEP + unknown + unknown)


def refused_before_failing():
    """What would fail is not said of a sheet that is refused further on."""
    yield ("D and a cut step -> refused 9 17",
           G, trace_for(G, 0) + STEP[:9])
    yield ("E and an unknown command -> refused 10 27",
           G, trace_for(G, 1, (0, 0, 7), (1, 0, 7)))
    yield ("F and a word beyond the stars -> refused 10 17",
           G, trace_for(G, 1, (0, 4, 1)))
    yield ("A and a byte after the map -> refused 9 16",
           H, map_for(H, ()) + b"\0")
    yield ("B and a byte after the map -> refused 9 16",
           H, map_for(H, range(8)) + b"\0")


GROUPS = (too_long, cut_traces, cut_maps, headers, orders, map_bytes,
          unused_bits, start_states, step_numbers, step_bytes,
          refused_before_failing)
