"""Reports of texts with names in other cases: a command is called what its
declaration calls it."""

from inputs.cases import G_CASES, H_CASES
from inputs.phrases import LONG, command, loop, model, refused_at

G_LINES = "model 1 2 1", "unsafe 1", "start 1", "step 1 Grant 3 7"


def setting_a(*commands, shared="a", value="A"):
    """Nothing is set at first, and the first name must not be."""
    return model(shared, "", (f"not {value}", "1"), (f"not {value}", "1"),
                 commands)


def one_step(name):
    """The second command, which is given, breaks the property."""
    return setting_a(command("Other"), command(name, "1", "A := 1"))


# What is shown, a text, and the lines worked out by hand.
REPORTED = [
    ("G", G_CASES, G_LINES),
    ("G, in capitals but for reserved words",
     G_CASES.replace("Grant", "GRANT").replace("m do", "M do"),
     (*G_LINES[:3], "step 1 GRANT 3 7")),
    ("H", H_CASES, ("model 1 2 1", "safe", "states 3", "at 1 3")),
    ("G without a start state",
     G_CASES.replace("start m each not x", "start m each not M"),
     ("model 1 2 1", "void")),
    ("each step by its own name", model(
        "a b c", "", ("not A and not B and not C", "1"), ("not c", "1"),
        [command("Third", "B", "C := 1"), command("second", "A", "b := a"),
         command("FIRST", "not a", "A := 1")]),
     ("model 3 0 3", "unsafe 3", "start 0", "step 1 FIRST 0 1",
      "step 2 second 0 3", "step 3 Third 0 7")),
    ("one command, twice", model(
        "A", "Turn", ("not a", "not turn"), ("1", "not (a and turn)"),
        [command("sTep", "a", loop(yes="TURN := 1"), "a := 1")]),
     ("model 1 1 1", "unsafe 2", "start 0", "step 1 sTep 0 1",
      "step 2 sTep 0 3")),
    ("part of a name before it", setting_a(
        command("Grant", "1", "GRANTED := 1"), shared="granted",
        value="granted"),
     ("model 1 0 1", "unsafe 1", "start 0", "step 1 Grant 0 1")),
    ("part of a name after it", setting_a(
        command("grant", "1", "A := 1"), command("GRANTS"), command("Gran")),
     ("model 1 0 3", "unsafe 1", "start 0", "step 1 grant 0 1")),
    ("part of a reserved word", setting_a(
        command("Comm", "1", "A := 1"), command("ELS")),
     ("model 1 0 2", "unsafe 1", "start 0", "step 1 Comm 0 1")),
]
REPORTED += [
    (f"called {name}", one_step(name),
     ("model 1 0 2", "unsafe 1", "start 0", f"step 1 {name} 0 1"))
    for name in ("Z", "GRANT", "gRANT", "grantT", "G_r1", "Command_",
                 LONG.upper(), LONG.title(), LONG[:8] + LONG[8:].upper())]


def reported():
    for detail, text, lines in REPORTED:
        yield f"{detail} -> {lines[1]}", text


def refused_cases():
    for detail, number, text in (
            ("a command called again", 4,
             setting_a(command("Grant"), command("^grant"))),
            ("a command like a shared name", 4,
             setting_a(command("^A", "1", "A := 1"))),
            ("a command's name as a value", 5,
             setting_a(command("Grant", "^grant", "A := 1"))),
            ("a reserved word", 3, setting_a(command("^Command"))),
            ("all in capitals", 3, "^" + G_CASES.upper())):
        yield refused_at(detail, number, text)


GROUPS = (reported, refused_cases)
