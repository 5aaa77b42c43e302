"""Runs commands on a terminal of their own."""
import fcntl
import os
import select
import struct
import subprocess
import tempfile
import termios


class Terminal:
    """A command with the standard streams on a terminal, but for those that the options name. Standard error is always there."""

    def __init__(self, command, size=(80, 24), **options):
        def control():
            fcntl.ioctl(2, termios.TIOCSCTTY, 0)

        self.ours, self.inside = os.openpty()
        self.resize(*size)
        streams = dict.fromkeys(("stdin", "stdout", "stderr"), self.inside)
        self.run = subprocess.Popen(command, start_new_session=True, preexec_fn=control, **{**streams, **options})

    def resize(self, columns, rows):
        fcntl.ioctl(self.ours, termios.TIOCSWINSZ, struct.pack("4H", rows, columns, 0, 0))

    def settings(self):
        return termios.tcgetattr(self.inside)

    def type(self, keys):
        os.write(self.ours, keys)

    def leave(self):
        """Leaves the inside to the command alone: when it is gone, nothing more comes."""
        os.close(self.inside)

    def comes(self, seconds=None):
        """What comes to the terminal next, and nothing where nobody is left who could write, or nobody has in so many seconds."""
        if not select.select([self.ours], [], [], seconds)[0]:
            return b""
        try:
            return os.read(self.ours, 4096)
        except OSError:
            return b""

    def close(self):
        os.close(self.ours)


def on_terminal(command, keys=b"", **options):
    """Status, standard output, and all that came to the terminal as standard error. Keys are typed there once something has come."""
    with tempfile.TemporaryFile() as output:
        terminal = Terminal(command, stdin=subprocess.DEVNULL, stdout=output, **options)
        terminal.leave()
        shown = b""
        while part := terminal.comes():
            shown += part
            if keys:
                terminal.type(keys)
                keys = b""
        terminal.close()
        status = terminal.run.wait()
        output.seek(0)
        return status, output.read(), shown
