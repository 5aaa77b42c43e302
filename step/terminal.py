"""The terminal while a person steps: its settings, its second screen, what is
typed, and signals. All of it is put back, however this ends."""

import contextlib
import os
import select
import signal
import termios

from streams import typed, write_out

ENDING = (signal.SIGINT, signal.SIGTERM, signal.SIGHUP, signal.SIGQUIT)
# The second screen without a cursor, and back.
ENTER, LEAVE = "\x1b[?1049h\x1b[?25l", "\x1b[?25h\x1b[?1049l"
HOME, CLEAR = "\x1b[H", "\x1b[2K"
# For a terminal that does not tell its size.
COLUMNS, ROWS = 80, 24


def is_there():
    return (os.isatty(0) and os.isatty(1)
            and os.environ.get("TERM", "dumb") != "dumb")


def size():
    columns, rows = os.get_terminal_size(1)
    return columns or COLUMNS, rows or ROWS


@contextlib.contextmanager
def taken():
    """Gives what comes from the terminal, as `events` has it."""
    with signals() as woken, settings(), second_screen():
        yield events(woken)


@contextlib.contextmanager
def signals():
    """A descriptor from which signals are read, so that none comes between
    two steps of putting things back."""
    woken, waking = os.pipe()
    os.set_blocking(waking, False)
    signal.set_wakeup_fd(waking)
    before = {number: signal.signal(number, lambda *_: None)
              for number in (*ENDING, signal.SIGWINCH)}
    try:
        yield woken
    finally:
        for number, handler in before.items():
            signal.signal(number, handler)
        signal.set_wakeup_fd(-1)
        os.close(woken)
        os.close(waking)


@contextlib.contextmanager
def settings():
    """What is typed comes at once and is not shown. Ctrl-C is a key: as a
    signal it would end the program and the shell around this too."""
    before, now = termios.tcgetattr(0), termios.tcgetattr(0)
    now[3] &= ~(termios.ICANON | termios.ECHO | termios.ISIG)
    now[6][termios.VMIN], now[6][termios.VTIME] = 1, 0
    try:
        termios.tcsetattr(0, termios.TCSADRAIN, now)
        yield
    finally:
        # A terminal that is gone has no settings.
        with contextlib.suppress(termios.error):
            termios.tcsetattr(0, termios.TCSADRAIN, before)


@contextlib.contextmanager
def second_screen():
    try:
        write_out(ENTER)
        yield
    finally:
        write_out(LEAVE)


def events(woken):
    """The bytes that are typed, to their end; nothing where the window has
    another size."""
    while True:
        ready = select.select([0, woken], [], [])[0]
        if woken in ready:
            if any(number in ENDING for number in os.read(woken, 256)):
                raise KeyboardInterrupt
            yield b""
        elif said := typed():
            yield said
        else:
            return


def draw(lines):
    """A line is cleared before it is written: behind its last column there
    is nothing to clear, but some terminals would clear that column."""
    write_out(HOME + "\r\n".join(CLEAR + line for line in lines))
