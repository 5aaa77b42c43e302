"""Texts about what may stand where, right and wrong."""

from inputs.phrases import SKIPPING, TOO_LONG, command, loop, model, numbered

G = """shared m. row w x.
start m each not x.
keep 1 each not (w and x).
command grant if m do
for 1 do w := *; x := * else skip end else skip."""

H = G.replace("x := *", "x := not w and *")

# Every slot of the notation is met in this one, with as few tokens as can be.
SAMPLE = """
shared a . row x . start a each x . keep ( 1 ) each not x or a .
command c if a do
  a := 1 ; for x do x := a ; skip else x := 0 end ; skip
else
  for 1 do skip else skip end ; a := * and 0 .
command d if 0 do skip else skip .
""".split()

STRANGERS = ("a", "x", "c", "q", "0", "*", "not", "and", "(", ")", ".", ";",
             ":=", ":", "=", "shared", "row", "start", "keep", "each",
             "command", "if", "do", "else", "for", "end", "skip", "2", "_a",
             TOO_LONG, "\t")


def basics():
    yield "G -> model", G
    yield "G with a last newline -> model", G + "\n"
    yield "H -> model", H
    yield "G that breaks at once -> model", G.replace(
        "keep 1 each not (w and x)", "keep 0 each 1")
    yield "G without a start -> model", G.replace(
        "start m each not x", "start 1 each 0")
    yield "empty -> 3", ""
    yield "12 names -> model", model(numbered("s", 6), numbered("r", 6))
    yield "13 names -> 7", model(numbered("s", 6), numbered("r", 7))


def blanks():
    for count in (1, 2, 15, 16, 17):
        yield f"{count} spaces -> 3", " " * count
        yield f"{count} newlines -> 3", "\n" * count
    yield "spaces and newlines -> 3", " \n \n\n  "
    text = model(commands=[command("c", "a and not b", "a:=b;b:=(1)",
                                   loop("x", "x:=y", "skip;y:=*"))])
    yield "single -> model", text
    yield "doubled -> model", text.replace(" ", "  ")
    yield "newlines -> model", text.replace(" ", "\n")
    yield "mixed -> model", text.replace(" ", " \n\n ")
    yield "before the text -> model", "\n \n" + text
    yield "after the text -> model", text + " \n \n"
    for mark in (".", ";", ":=", "(", ")"):
        yield f"around {mark} -> model", text.replace(mark, f" \n{mark}\n ")
        yield f"none after {mark} -> model", text.replace(mark + " ", mark)
    yield "inside := -> 3", text.replace(":=", ": =")
    yield "newline inside := -> 3", text.replace(":=", ":\n=")
    yield "inside a reserved word -> 3", text.replace("keep", "ke ep")
    yield "inside a name -> 3", model("a b", commands=[command("c d")])
    yield "no blanks but the needed -> model", (
        "shared a b.row x.start(a)each(x)or a.keep not(a)each(1)."
        "command c if(a)do a:=b;b:=a;for(x)do x:=b else skip end else skip.")
    yield "no names and no blank before a full stop -> model", (
        "shared.row.start 1 each 1.keep 1 each 1." + SKIPPING)
    yield "trailing blanks of a short text -> 3", "shared a. row \n  "
    yield "trailing newline of a short text -> 3", "shared\n"
    yield "short text, place moved by leading blanks -> 3", "   shared a"
    for glued in ("shareda.", "startaeacha", "1each", "command1", "0or1",
                  "nota", "skipelse", "forx", "endelse"):
        yield f"glued {glued} -> 3", (
            "shared a. row x. " if glued != "shareda." else "") + glued
    yield "glued not reads as a name -> 5", model(start=("nota", "1"))
    yield "glued and reads as a name -> 5", model(start=("aandb", "1"))


def cuts():
    second = len(SAMPLE) - SAMPLE[::-1].index("command") - 1
    for count in range(len(SAMPLE) + 1):
        text = " ".join(SAMPLE[:count])
        meant = "model" if count in (second, len(SAMPLE)) else "3"
        yield f"after {count} tokens -> {meant}", text
        if count % 5 == 0:
            yield f"after {count} tokens and blanks -> {meant}", text + " \n "
    small = ("shared a.row x.start a each x.keep 1 each 0."
             "command c if a do a:=1 else skip.")
    for length in range(1, len(small)):
        yield f"after {length} bytes", small[:length]


def strangers():
    """Each token at each position; what follows it no longer matters."""
    for count in range(len(SAMPLE) + 1):
        for stranger in STRANGERS:
            yield f"{stranger!r} after {count}", " ".join(
                SAMPLE[:count] + [stranger])


def edits():
    for j in range(len(SAMPLE)):
        head, token, rest = SAMPLE[:j], SAMPLE[j], SAMPLE[j + 1:]
        yield f"without token {j}", " ".join(head + rest)
        yield f"token {j} doubled", " ".join(head + [token, token] + rest)
        yield f"token {j} moved back", " ".join(
            head + rest[:1] + [token] + rest[1:])


def precedence():
    for text in (
            "a", "not a", "not not a", "(a)", "((a))", "(not a)", "not(a)",
            "a and b", "a or b", "a and b and a", "a or b or a",
            "a and b or a", "a or b and a", "a and b or a and b",
            "a or b and a or b", "not a and b", "not a or b", "a and not b",
            "a or not b", "not a and not b or not a", "not (a and b)",
            "not (a or b)", "not (a) and b", "(a or b) and a",
            "a and (b or a)", "a and (b and a)", "(a and b) and a",
            "a or (b or a)", "(a or b) or a", "a or (b or a) or b",
            "a and (b and a) and b", "(a and b) or (a and b)",
            "(a or b) and (b or a)", "not not (a or not b) and not not a",
            "a or b and not a or (b or a and b) and a",
            "0 or 1 and 0", "1 and 0 or 1", "not 0 and 1",
            "a and b and a or b and a and b or a",
            "((a or b)) or ((a)) and b"):
        yield f"{text} -> model", model(start=(text, "1"))
    for text in ("x and a or y", "not x or y and b",
                 "(x or a) and not (y or b)"):
        yield f"row {text} -> model", model(keep=("1", text))
    for text in ("", "()", "( )", "a b", "a and", "and a", "or", "not",
                 "a not b", "a and or b", "a or and b", "not and a", "(a",
                 "a)", "(a))", "a (b)", "(a) b", "(a)(b)", "a = b", "a := b",
                 "a ; b", "a . b", "not . a", "a and . b", "0 1", "1 (", ")(",
                 "a each b", "a or each", "(a each b)", "if", "a do b"):
        yield f"wrong {text!r} -> 3", model(start=(text, "1"))


def items():
    for text in ("skip", "skip;skip", "a:=1", "a:=b;b:=a", "a:=a and b;skip",
                 "for 1 do skip else skip end",
                 "for x do x:=0;y:=1 else y:=x;x:=y end;a:=1",
                 "skip;for a and x do skip else x:=a end;skip",
                 "for 1 do skip else skip end;for 0 do skip else skip end",
                 "a:=(b)", "a:=not b", "a:=*;b:=*"):
        yield f"do {text} -> model", model(commands=[command(yes=text)])
        yield f"else {text} -> model", model(commands=[command(no=text)])
    for text in ("", ";", "skip;", ";skip", "skip;;skip", "a", "a:=", ":=1",
                 "a=1", "a:1", "a::=1", "a:==1", "a:=1:=1", "a:=1;b",
                 "skip skip", "skip:=1", "end", "do skip", "for",
                 "for 1", "for do skip else skip end",
                 "for 1 skip else skip end",
                 "for 1 do else skip end", "for 1 do skip end",
                 "for 1 do skip else end", "for 1 do skip else skip",
                 "for 1 do skip; else skip end",
                 "for 1 do skip else skip; end",
                 "for 1 do skip else skip end end",
                 "for 1 do skip else skip end skip",
                 "for 1 do for 1 do skip else skip end else skip end",
                 "for 1 do skip else for 1 do skip else skip end end",
                 "for 1 do skip. else skip end", "(skip)", "skip end",
                 "if 1 do skip else skip", "command", "a b:=1"):
        yield f"wrong do {text!r} -> 3", model(commands=[command(yes=text)])
        yield f"wrong else {text!r} -> 3", model(commands=[command(no=text)])


def wholes():
    """Small models, and their parts in a wrong order."""
    smallest = "shared.row.start 1 each 1.keep 1 each 1." + SKIPPING
    yield "smallest -> model", smallest.replace("1 each", "0 each")
    yield "two clauses swapped -> 3", (
        "shared.row.keep 1 each 1.start 1 each 1." + SKIPPING)
    yield "lists swapped -> 3", (
        "row.shared.start 1 each 1.keep 1 each 1." + SKIPPING)
    yield "two starts -> 3", smallest.replace("keep", "start")
    yield "no keep -> 3", smallest.replace("keep 1 each 1.", "")
    yield "no row list -> 3", smallest.replace("row.", "")
    yield "declaration after a command -> 3", smallest + " shared z."
    yield "clause after a command -> 3", smallest + " keep 1 each 1."
    yield "text twice -> 3", smallest + smallest
    yield "two full stops at the end -> 3", smallest + "."
    yield "last full stop missing -> 3", smallest[:-1]
    yield "turn taking -> model", model(
        "turn", "try in", ("not turn", "not try and not in"),
        ("1", "not (try and in) or turn"),
        [command("ask", "*", loop("not in", "try := *")),
         command("enter", "not turn", "turn := 1;"
                 + loop("try and not in", "in := *; try := not in")),
         command("leave", "turn", loop("in", "in := 0") + ";turn := 0")])
    yield "copies across -> model", model(
        "p q", "u v w", ("p or q", "u and v or w"), ("not p", "q or u"),
        [command("go", "p and q", "p := q;q := not p;"
                 + loop("u", "v := u;u := w", "w := p and q"),
                 loop("p", "skip", "u := *"))])


GROUPS = (basics, blanks, cuts, strangers, edits, precedence, items, wholes)
