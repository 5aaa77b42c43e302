"""From a text to its explanation: runs the programs report and reserve, and
prints what they say in words or writes it as a page."""

import os
import subprocess

import page
import plain
from refusals import LONGEST_TEXT
from reservations import Unreserved, search_of
from streams import NO_ANSWER, Stopped, read, show, shown, status_of, stopping
from texts import model_of
from traces import Refused, Safe, Unreadable, Unsafe, Void, report_of

# Where nothing starts nothing was shown: void has the status of unsafe.
STATUS = {Safe: 0, Void: 1, Unsafe: 1, Refused: NO_ANSWER}
FAULTS = {Unreadable: "the report program gave no report of this text",
          Unreserved: "the reserve program gave no reservation of this text"}


def explained_by(form, file, text, report, reserved=None):
    """What a form of output, plain or page, says of a report and of what is
    reserved for a text that is not refused."""
    if isinstance(report, Refused):
        return form.refused(file, text, report)
    model = model_of(text)
    if report.counts != model.counts:
        raise Unreadable
    search = search_of(reserved, model)
    say = {Safe: form.safe, Void: form.void, Unsafe: form.unsafe}
    return say[type(report)](file, text, report, model, search)


def asked(program, text):
    """What a program says of the text, in its bytes."""
    return subprocess.run([program], input=text, stdout=subprocess.PIPE,
                          check=False).stdout


def explain(reporting, reserving, path, out):
    file, text = shown(path), read(path, LONGEST_TEXT)
    report = report_of(asked(reporting, text))
    said = [file, text, report]
    if not isinstance(report, Refused):
        said.append(asked(reserving, text))
    lines = explained_by(plain, *said)
    if out is None:
        show(lines)
    else:
        write(out, path, explained_by(page, *said))
        show(lines[:1])
    return STATUS[type(report)]


def write(out, path, said):
    if os.path.exists(out) and os.path.samefile(out, path):
        raise Stopped(f"{shown(out)} is the model's own file")
    with (stopping(f"cannot write {shown(out)}"),
          open(out, "w", encoding="utf-8") as file):
        file.write(said)


def main(reporting, reserving, path, out=None):
    return status_of("explain", FAULTS, explain, reporting, reserving, path,
                     out)
