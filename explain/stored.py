"""The stored cases of the tests: a text, what the programs report and reserve
print for it, and the plain explanation, where FILE stands for the text's path
and TIME for how long a search takes. Beside them a text with the longest run
there can be, and one with the most settings."""

import re
from dataclasses import dataclass
from pathlib import Path

from sentences import lasting
from speed import BATCH_NANOSECONDS, BATCH_WORDS

FOLDER = Path(__file__).resolve().parent / "cases"
MOST_STEPS = 4095
MOST_SETTINGS = 256


@dataclass(frozen=True)
class Case:
    path: Path
    text: bytes
    report: bytes
    reservation: bytes
    plain: str

    @property
    def name(self):
        return self.path.stem

    @property
    def said(self):
        """The text, and what the programs say of it."""
        return self.text, self.report, self.reservation


def case(path):
    text, report = path.read_bytes(), path.with_suffix(".report").read_bytes()
    plain = path.with_suffix(".plain").read_text(encoding="utf-8")
    # Both programs refuse a text in the same line.
    if report.startswith(b"refused"):
        return Case(path, text, report, report, plain)
    reservation = path.with_suffix(".reservation").read_bytes()
    return Case(path, text, report, reservation,
                plain.replace("TIME", longest(text, reservation)))


def longest(text, reservation):
    """How long a search takes, from the stars behind each `command`. The
    measured figure may change, and with it no stored file."""
    _, *commands = re.split(rb"\bcommand\b", text)
    batches = sum(max(1, 2 ** command.count(b"*") // BATCH_WORDS)
                  for command in commands)
    return lasting(int(reservation.split()[1]) * batches * BATCH_NANOSECONDS)


def cases():
    return [case(path) for path in sorted(FOLDER.glob("*.text"))]


def counter():
    """A text that counts through all states of 12 names, its report and its
    reservation."""
    shared = [f"low_{j}" for j in range(8)]
    row = [f"high_{j}" for j in range(4)]
    names = shared + row
    carried = [f"{name} := {turned(name, names[:j])}"
               for j, name in enumerate(names)]
    # The highest bit goes first, while those below still have their values.
    high, low = ("; ".join(reversed(half))
                 for half in (carried[8:], carried[:8]))
    clear = " and ".join(f"not {name}" for name in shared)
    rows_clear = " and ".join(f"not {name}" for name in row)
    text = (f"shared {' '.join(shared)}. row {' '.join(row)}.\n"
            f"start {clear} each {rows_clear}.\n"
            f"keep 1 each not ({' and '.join(names)}).\n"
            f"command a_longer_command if {stars(8)} or 1 do\n"
            f"for 1 do {high} else skip end; {low} else skip.\n")
    steps = "".join(f"step {number} a_longer_command 0 {number}\n"
                    for number in range(1, MOST_STEPS + 1))
    report = f"model 8 4 1\nunsafe {MOST_STEPS}\nstart 0\n{steps}"
    return text.encode(), report.encode(), reserved(4096 * 256)


def all_settings():
    """A text with states at every setting of 8 shared names, its report and
    its reservation. The lowest two bits tell how many of the 16 rows are
    there."""
    shared = " ".join(f"low_{j}" for j in range(8))
    row = " ".join(f"high_{j}" for j in range(4))
    text = (f"shared {shared}. row {row}.\n"
            "start 1 each low_0 or low_1 and high_0 or high_1 and high_2.\n"
            "keep 1 each 1.\ncommand idle if 1 do skip else skip.\n")
    counts = [(4, 16, 10, 16)[j % 4] for j in range(MOST_SETTINGS)]
    lines = "".join(f"at {j} {count}\n" for j, count in enumerate(counts))
    report = f"model 8 4 1\nsafe\nstates {sum(counts)}\n{lines}"
    return text.encode(), report.encode(), reserved(4096)


def reserved(trials):
    """A reservation for 12 names."""
    return f"entries 4096\nbytes 40967\ntrials {trials}\n".encode()


def turned(name, below):
    """The name's value, turned where all below it are set."""
    if not below:
        return f"not {name}"
    full = f"({' and '.join(below)})"
    return f"{name} and not {full} or not {name} and {full}"


def stars(count):
    return " or ".join(["*"] * count)
