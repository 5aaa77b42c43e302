"""Runs a program and takes its processor time."""

import os
import resource
import subprocess
import sys


def timed(arguments, folder=None, given=os.devnull, limit=None):
    """What a program writes, the given file on its standard input, and its
    processor time in seconds, that of its children included. A program with a
    limit of such seconds may fail, and then nothing counts as written."""
    with open(given, "rb") as file:
        process = subprocess.Popen(arguments, cwd=folder, stdin=file,
                                   stdout=subprocess.PIPE)
    if limit is not None:
        resource.prlimit(process.pid, resource.RLIMIT_CPU, (limit, limit))
    said = process.stdout.read()
    process.stdout.close()
    _, status, usage = os.wait4(process.pid, 0)
    process.returncode = os.waitstatus_to_exitcode(status)
    if process.returncode != 0:
        if limit is None:
            sys.exit(f"{arguments[0]} ended with status {process.returncode}")
        said = None
    return said, usage.ru_utime + usage.ru_stime
