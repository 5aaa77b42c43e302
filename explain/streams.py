"""Files and standard streams: what is read, what is written, and what is told
where that fails."""

import contextlib
import os
import signal
import sys
import traceback

# Of what is refused, unreadable or not written.
NO_ANSWER = 2


class Stopped(Exception):
    """Why a command could not go on."""


def shown(path):
    """A path of any bytes as characters that can be printed."""
    name = os.fsencode(path).decode("utf-8", "backslashreplace")
    return "".join(c if c.isprintable() else ascii(c)[1:-1] for c in name)


def read(path, longest):
    """A byte more than the longest, so that the program refuses it."""
    with stopping(f"cannot read {shown(path)}"), open(path, "rb") as file:
        return file.read(longest + 1)


def typed():
    """What standard input has next; nothing at its end."""
    with stopping("cannot read standard input"):
        return os.read(0, 1024)


def show(lines):
    write_out("".join(f"{line}\n" for line in lines))


def write_out(said):
    """By the descriptor: sys.stdout is None where it is closed, and keeps
    what could not be written for a second try at the end."""
    with (stopping("cannot write standard output"),
          open(1, "wb", closefd=False) as output):
        output.write(said.encode())


@contextlib.contextmanager
def stopping(what):
    """What the system refuses stops the command."""
    try:
        yield
    except OSError as fault:
        raise Stopped(f"{what}: {fault.strerror}") from fault


def tell(fault):
    """That there is no answer stands, also where it cannot be told."""
    if sys.stderr is not None:
        with contextlib.suppress(OSError):
            print(f"nutseason: {fault}", file=sys.stderr)


def status_of(name, faults, command, *given):
    """The status of a command. Why it stopped is told; `faults` has what to
    tell of other exceptions that are foreseen."""
    try:
        return command(*given)
    except Stopped as stop:
        tell(stop)
    except tuple(faults) as fault:
        tell(faults[type(fault)])
    except KeyboardInterrupt:
        # By now all is put back. A shell ends with what this signal ends.
        signal.signal(signal.SIGINT, signal.SIG_DFL)
        os.kill(os.getpid(), signal.SIGINT)
    except Exception:
        # Python's own status for this is 1, which is an answer here.
        tell(f"{name} went wrong\n{traceback.format_exc()}")
    return NO_ANSWER
