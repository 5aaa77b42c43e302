"""The reader against expectations worked out by hand, and against two other
ways of parsing: an Earley recogniser, and Python's own expressions."""

import ast
import random
import unittest

from reader.layout import line
from reader.model import (Assignment, Chain, Clause, Command, Constant, For,
                          Model, Name, Not, Refusal, Row, Shared, Skip, Star)
from reader.notation import walk
from reader.reading import read
from reader.tokens import BAD, MISFIT, NAME, RESERVED, cut

G = ("shared m. row w x.\n"
     "start m each not x.\n"
     "keep 1 each not (w and x).\n"
     "command grant if m do\n"
     "for 1 do w := *; x := * else skip end else skip.")

LISTS = "shared a b. row x y. "
CLAUSES = "start 1 each 1. keep 1 each 1. "
ANY = "command c if 1 do skip else skip."
TO_COMMANDS = LISTS + CLAUSES
TO_TEST = TO_COMMANDS + "command c if "
TO_ITEMS = TO_TEST + "1 do "
WORD_16 = "abcdefghijklmnop"
WORD_17 = "abcdefghijklmnopq"


def ones(count):
    """Operands joined by and: the nodes are twice the count less one."""
    return " and ".join(["1"] * count)


def skips(count):
    return ";".join(["skip"] * count)


# The number expected and the text, in which @ stands before the place
# expected. The byte @ is never allowed, so it can be told apart.
REFUSED = [
    # 3: the text ends too early.
    (3, "@"),
    (3, " @"),
    (3, "\n\n  \n@"),
    (3, "shared@"),
    (3, "shared \n @"),
    (3, "shared a b@"),
    (3, "shared a b.@"),
    (3, "shared a b. row@"),
    (3, "shared a b. row x.@"),
    (3, "shared. row. start@"),
    (3, "shared. row. start 1@"),
    (3, "shared. row. start 1 each (0@"),
    (3, "shared. row. start 1 each 1 and@"),
    (3, "shared. row. start 1 each 1. keep not@"),
    (3, TO_COMMANDS + "@"),
    (3, TO_COMMANDS + "command@"),
    (3, TO_TEST + "@"),
    (3, TO_ITEMS + "a@"),
    (3, TO_ITEMS + "a:=@"),
    (3, TO_ITEMS + "skip;@"),
    (3, TO_ITEMS + "skip else skip@"),
    (3, TO_ITEMS + "for x do skip else skip end@"),
    (3, TO_COMMANDS + ANY + " command@"),
    # 3: a token that may not stand there.
    (3, "@row."),
    (3, "@a"),
    (3, "@1"),
    (3, "@shareda"),
    (3, "@sharedd."),
    (3, "@Shared."),
    (3, "shared @Shared."),
    (3, "shared a @eNd."),
    (3, "shared. @Row."),
    (3, LISTS + "start a @AND b"),
    (3, LISTS + "start @Not a"),
    (3, TO_COMMANDS + "@Command c"),
    (3, TO_COMMANDS + "command @IF if"),
    (3, TO_ITEMS + "@SKIP else"),
    (3, TO_ITEMS + "@For := 1"),
    (3, "shared @shared."),
    (3, "shared a@; b."),
    (3, "shared a. @start 1"),
    (3, "shared @0."),
    (3, "shared @1a."),
    (3, "shared @_a."),
    (3, "shared a @_."),
    (3, "shared @*."),
    (3, "shared a @(b)."),
    (3, LISTS + "start @each 1."),
    (3, LISTS + "start @."),
    (3, LISTS + "start 1@. keep"),
    (3, LISTS + "start 1 @1 each"),
    (3, LISTS + "start 1 each 1 @each"),
    (3, LISTS + "start 1 each 1. @start"),
    (3, LISTS + "start a @b each"),
    (3, LISTS + "start a @not b each"),
    (3, LISTS + "start a@(b) each"),
    (3, LISTS + "start (a @each"),
    (3, LISTS + "start (@) each"),
    (3, LISTS + "start a@) each"),
    (3, LISTS + "start a and @or b"),
    (3, LISTS + "start @00 each"),
    (3, LISTS + "start @01 each"),
    (3, LISTS + "start @2 each"),
    (3, LISTS + "start a @= b"),
    (3, LISTS + "start a @:= b"),
    (3, LISTS + "start @:a"),
    (3, LISTS + "start @1each 1."),
    (3, LISTS + "start 1 each 1. keep 1 each 1. @."),
    (3, TO_COMMANDS + "command @if"),
    (3, TO_COMMANDS + "command @skip if"),
    (3, TO_COMMANDS + "command c @do"),
    (3, TO_TEST + "@do"),
    (3, TO_TEST + "1 @else"),
    (3, TO_ITEMS + "@else"),
    (3, TO_ITEMS + "@;"),
    (3, TO_ITEMS + "skip;@;"),
    (3, TO_ITEMS + "skip; @else"),
    (3, TO_ITEMS + "skip @:= 1"),
    (3, TO_ITEMS + "skip@. "),
    (3, TO_ITEMS + "skip @end"),
    (3, TO_ITEMS + "a @= 1"),
    (3, TO_ITEMS + "a @: = 1"),
    (3, TO_ITEMS + "a @::= 1"),
    (3, TO_ITEMS + "a :=@= 1"),
    (3, TO_ITEMS + "a := 1 @:= 1"),
    (3, TO_ITEMS + "a @1"),
    (3, TO_ITEMS + "@1 := 1"),
    (3, TO_ITEMS + "@(skip)"),
    (3, TO_ITEMS + "a := 1 @end"),
    (3, TO_ITEMS + "for @do"),
    (3, TO_ITEMS + "for x @else"),
    (3, TO_ITEMS + "for x do skip @end"),
    (3, TO_ITEMS + "for x do skip@."),
    (3, TO_ITEMS + "for x do @for x do skip"),
    (3, TO_ITEMS + "for x do skip else @for x do skip"),
    (3, TO_ITEMS + "for x do skip else skip @else"),
    (3, TO_ITEMS + "for x do skip else skip; @end"),
    (3, TO_ITEMS + "for x do skip else skip end @end"),
    (3, TO_ITEMS + "for x do skip else skip end @skip"),
    (3, TO_ITEMS + "skip else skip @else"),
    (3, TO_ITEMS + "skip else skip; @."),
    (3, TO_COMMANDS + ANY + "@."),
    (3, TO_COMMANDS + ANY + " @shared"),
    (3, TO_COMMANDS + ANY + " @c"),
    # 2: bytes and long words, wherever they stand.
    (2, "@\t"),
    (2, "@\xff shared"),
    (2, "shared@\r\n"),
    (2, "shared a@-b."),
    (2, "shared a@\x00"),
    (2, "shared@\t" + WORD_17),
    (2, "shared " + WORD_16 + "@\t" + WORD_16),
    (2, "@" + WORD_17),
    (2, "shared @" + WORD_17 + "."),
    (2, "shared @" + "1" * 17),
    (2, "shared.@" + "_" * 17),
    (2, LISTS + "start 1 @" + "0" * 17),
    (2, TO_COMMANDS + ANY + "@#"),
    (2, TO_COMMANDS + ANY + "\n@" + WORD_17),
    (2, "shared @" + WORD_17 + "\x00"),
    (2, "shared @Rowaaaaaaaaaaaaaa."),
    # 4: declared before.
    (4, "shared a @a."),
    (4, "shared a b @a b."),
    (4, "shared a. row x @a."),
    (4, "shared. row x y @x."),
    (4, TO_COMMANDS + "command @b if"),
    (4, TO_COMMANDS + "command @y"),
    (4, TO_COMMANDS + ANY + " command d if 1 do skip else skip. command @c"),
    (4, "shared a @A."),
    (4, "shared Page. row x @pagE."),
    (4, TO_COMMANDS + "command @B if"),
    (4, TO_COMMANDS + "command @Y"),
    (4, TO_COMMANDS + ANY + " command @C"),
    # 5: undeclared, or of a kind that does not fit.
    (5, LISTS + "start @c"),
    (5, LISTS + "start @x each"),
    (5, LISTS + "start not (a or @y)"),
    (5, LISTS + "start a each @q"),
    (5, LISTS + "start 1 each 1. keep @x each"),
    (5, LISTS + "start @C each"),
    (5, LISTS + "start @X each"),
    (5, TO_TEST + "@c do"),
    (5, TO_TEST + "@x do"),
    (5, TO_ITEMS + "@x := 1"),
    (5, TO_ITEMS + "@x 1"),
    (5, TO_ITEMS + "@c := 1"),
    (5, TO_ITEMS + "@q := 1"),
    (5, TO_ITEMS + "a := @x"),
    (5, TO_ITEMS + "for @c do"),
    (5, TO_ITEMS + "for x do @a := 1"),
    (5, TO_ITEMS + "for x do skip else @b := 1"),
    (5, TO_ITEMS + "for x do x := @q"),
    (5, TO_ITEMS + "for x do skip else skip end; @x := 1"),
    (5, TO_COMMANDS + ANY + " command d if @c do"),
    (5, TO_TEST + "@d do skip else skip. command d if 1"),
    # 6: stars in start and keep.
    (6, LISTS + "start @* each"),
    (6, LISTS + "start 1 each not @*."),
    (6, LISTS + "start 1 each 1. keep (@*)"),
    (6, LISTS + "start 1 each 1. keep 1 each x or @* and *"),
    (3, LISTS + "start a @* each"),
    (3, LISTS + "start 1 @* 1."),
    (3, LISTS + "@*"),
    # 7: limits.
    (7, "shared a b c d e f g h @i j."),
    (7, "shared. row a b c d e f g h i j @k."),
    (7, "shared a b. row c d e f g h i j k l @m."),
    (7, "shared a b c d e f g h. row i j k l @m n."),
    (7, "shared a b c d e f g. row i j k l m @n."),
    (7, LISTS + "start " + "(" * 16 + "@(1"),
    (7, LISTS + "start " + "not " * 16 + "@not 1"),
    (7, LISTS + "start " + "not(" * 8 + "@not 1"),
    (7, LISTS + "start " + "not(" * 8 + "@(1"),
    (7, LISTS + "start " + "(" * 15 + "not a and not b and not @(a"),
    (7, TO_ITEMS + "a := " + "(" * 16 + "@("),
    (7, TO_TEST + "* or * or * or * or * or * or * or * or @*"),
    (7, TO_TEST + "*or*or*or* do a:=*;for * do x:=* else y:=* end"
     " else for @* do skip else skip end."),
    (7, TO_ITEMS + skips(256) + ";@skip"),
    (7, TO_ITEMS + skips(256) + ";@a := 1"),
    (7, TO_ITEMS + skips(256) + " else @for 1"),
    (7, TO_ITEMS + skips(254) + ";for x do skip;@skip"),
    (7, TO_ITEMS + skips(254) + ";for x do x:=1 else @x:=1"),
    (7, LISTS + "start " + ones(512) + " or @not 1"),
    (7, LISTS + "start not " + ones(512) + " @and 1"),
    (7, LISTS + "start not " + ones(512) + " @or 1"),
    (7, LISTS + "start not " + ones(512) + " each @1"),
    (7, LISTS + "start not " + ones(512) + " each @x"),
    (7, TO_TEST + "not " + ones(510) + " do a := @*"),
    (7, TO_COMMANDS + " ".join(ANY.replace("c i", f"c{j} i")
                               for j in range(16)) + " @command"),
    (7, TO_COMMANDS + " ".join(ANY.replace("c i", f"c{j} i")
                               for j in range(16)) + " @command c3 \t"),
    # Two faults at one token: the lowest number.
    (2, "shared a b c d e f g h @" + WORD_17),
    (2, LISTS + "start 1@\t"),
    (3, "shared a b c d e f g h @skip"),
    (3, LISTS + "start " + "(" * 16 + "1 @("),
    (3, TO_TEST + "*or*or*or*or*or*or*or* @*"),
    (3, TO_ITEMS + skips(256) + ";@else"),
    (4, "shared a b c d e f g h @a"),
    (4, "shared a b c d e f g h. row i j k l @i"),
    (4, "shared. row a b c d e f g h i j @j"),
    (5, LISTS + "start " + ones(512) + " or @q"),
    (5, LISTS + "start " + ones(512) + " or @x"),
    (5, TO_ITEMS + skips(256) + ";@x := 1"),
    (5, TO_ITEMS + skips(256) + ";@c := 1"),
    (6, LISTS + "start " + ones(512) + " or @*"),
    # Two faults in one text: the earlier.
    (3, "shared @; \t"),
    (2, "shared @\t ;"),
    (4, "shared a @a " + WORD_17),
    (5, LISTS + "start @q\t"),
    (6, LISTS + "start @* and x"),
    (5, LISTS + "start @x and *"),
    (7, LISTS + "start " + "(" * 16 + "@(q"),
]

# Texts that are read, each at the edge of something.
READ = [
    TO_COMMANDS + ANY,
    "shared.row." + CLAUSES + ANY,
    "\n shared\n.\nrow . " + CLAUSES + ANY + " \n",
    "shared a b c d e f g h. row. " + CLAUSES
    + "command i if 1 do skip else skip.",
    "shared. row a b c d e f g h i j. " + CLAUSES
    + "command k if 1 do skip else skip.",
    "shared a b. row c d e f g h i j k l. " + CLAUSES
    + "command m if 1 do skip else skip.",
    "shared a b c d e f g h. row i j k l. " + CLAUSES
    + "command m if 1 do skip else skip.",
    "shared " + WORD_16 + " Z_9 z0. row Ands NOT_ starts. " + CLAUSES + ANY,
    "shared Rowaaaaaaaaaaaaa. row aRow Row_1. start ROWAAAAAAAAAAAAA "
    "each arow or row_1. keep 1 each 1. " + ANY,
    LISTS + "start " + "(" * 16 + "1" + ")" * 16 + " each " + "not " * 16
    + "x. keep 1 each 1. " + ANY,
    LISTS + "start " + "(" * 15 + "not a and not b or (a) and (b)" + ")" * 15
    + " and " + "(" * 16 + "a" + ")" * 16 + " each 1. keep 1 each 1. " + ANY,
    LISTS + "start " + "not (a) and " * 20 + "1 each 1. keep 1 each 1. " + ANY,
    TO_TEST + "*or*or*or*or*or*or*or* do skip else skip."
    "command d if *or*or*or*or*or*or*or* do skip else skip.",
    TO_ITEMS + skips(255) + " else skip.",
    TO_ITEMS + skips(252) + " else for 1 do skip else x:=1;skip end.",
    TO_TEST + "not " + ones(510) + " do skip else skip.",
    TO_TEST + "((" + ones(509) + ")) do a := (1) else for (1) do x:=1 else "
    "skip end.",
    TO_COMMANDS + "".join(ANY.replace("c i", f"c{j} i") for j in range(16)),
]

# Texts and their whole answer lines, worked out by hand.
LINES = [
    ("shared.row.start 1 each 0.keep 0 each 1."
     "command c if 1 do skip else skip.",
     "model 0 0 1 stars 0 names 48 1 ends 1 2 3 4 10 "
     "code 1 0 0 1 1 224 320 256 320 288"),
    (G,
     "model 1 2 1 stars 2 names 7 1 14 1 16 1 74 5 ends 1 3 4 8 22 "
     "code 32 34 96 1 33 34 128 96 "
     "32 224 1 224 64 193 65 194 256 320 288 256 320 288"),
    (G.replace("x := *", "x := not w and *"),
     "model 1 2 1 stars 2 names 7 1 14 1 16 1 74 5 ends 1 3 4 8 25 "
     "code 32 34 96 1 33 34 128 96 "
     "32 224 1 224 64 193 33 96 65 128 194 256 320 288 256 320 288"),
    ("shared a b.row x.start a or b and not a each x."
     "keep (a or b) and a each a and x or 0."
     "command c if * do a:=b;b:=* else skip."
     "command d if 1 do skip else for x do x:=a else x:=* end.",
     "model 2 1 2 stars 2 1 names 7 1 9 1 15 1 93 1 131 1 "
     "ends 6 7 12 17 26 39 "
     "code 32 33 32 96 128 160 34 32 33 160 32 128 32 34 128 0 160 "
     "64 224 33 192 65 193 256 320 288 "
     "1 224 320 256 34 224 32 194 256 64 194 288 288"),
]

# Shared expressions over a and b, which are 32 and 33 in postfix.
POSTFIX = [
    ("a", [32]),
    ("((b))", [33]),
    ("not not a", [32, 96, 96]),
    ("a or b or 0", [32, 33, 160, 0, 160]),
    ("a or (b or 0)", [32, 33, 0, 160, 160]),
    ("(a or b) or 0", [32, 33, 160, 0, 160]),
    ("a and b and 0", [32, 33, 128, 0, 128]),
    ("a and (b and 0)", [32, 33, 0, 128, 128]),
    ("a or b and 0", [32, 33, 0, 128, 160]),
    ("a and b or 0", [32, 33, 128, 0, 160]),
    ("not a and b", [32, 96, 33, 128]),
    ("not (a and b)", [32, 33, 128, 96]),
    ("a and b or b and a or 1", [32, 33, 128, 33, 32, 128, 160, 1, 160]),
    ("a or not b and not (a or b)",
     [32, 33, 96, 32, 33, 160, 96, 128, 160]),
]


def start_code(expression):
    """The postfix code of a shared expression over a and b."""
    text = f"{LISTS}start {expression} each 1. keep 1 each 1. {ANY}"
    words = line(text.encode()).split()
    end = int(words[words.index("ends") + 1])
    codes = words[words.index("code") + 1:]
    return [int(word) for word in codes[:end]]


class Expected(unittest.TestCase):
    def test_refused(self):
        for number, marked in REFUSED:
            with self.subTest(marked):
                self.assertEqual(marked.count("@"), 1)
                text = marked.replace("@", "").encode("latin-1")
                self.assertEqual(read(text),
                                 Refusal(number, marked.index("@")))

    def test_refused_line(self):
        self.assertEqual(line(b""), "refused 3 0")
        self.assertEqual(line(b"shared a a."), "refused 4 9")

    def test_read(self):
        for text in READ:
            with self.subTest(text):
                self.assertIsInstance(read(text.encode()), Model)

    def test_lines(self):
        for text, expected in LINES:
            with self.subTest(text):
                self.assertEqual(line(text.encode()), expected)

    def test_postfix(self):
        for expression, expected in POSTFIX:
            with self.subTest(expression):
                self.assertEqual(start_code(expression), expected)

    def test_length(self):
        whole = (TO_COMMANDS + ANY).encode()
        self.assertIsInstance(read(whole.ljust(16384)), Model)
        self.assertEqual(read(whole.ljust(16385)), Refusal(1, 16384))
        self.assertEqual(read(b"\t" * 16385), Refusal(1, 16384))
        self.assertEqual(read(b"\t" * 16384), Refusal(2, 0))
        self.assertEqual(read(b" " * 16384), Refusal(3, 16384))
        self.assertEqual(read(whole.ljust(16383) + b"."), Refusal(3, 16383))

    def test_bytes(self):
        allowed = set(b"ABCDEFGHIJKLMNOPQRSTUVWXYZabcdefghijklmnopqrstuvwxyz"
                      b"0123456789_ \n.;:=()*")
        self.assertEqual(len(allowed), 26 + 26 + 10 + 1 + 2 + 7)
        for byte in range(256):
            refusal = read(b"shared" + bytes([byte]))
            if byte not in allowed:
                self.assertEqual(refusal, Refusal(2, 6))
            else:
                self.assertEqual(refusal.number, 3)

    def test_reserved(self):
        self.assertEqual(len(RESERVED), 15)
        for word in RESERVED:
            self.assertEqual(read(f"shared a {word}".encode()), Refusal(3, 9))
            self.assertEqual(read(f"shared a {word}_.".encode()),
                             Refusal(3, 11 + len(word)))
            for other in (word.upper(), word.capitalize()):
                self.assertEqual(read(f"shared a {other} b".encode()),
                                 Refusal(3, 9))

    def test_model(self):
        text = ("shared a. row x. start a each x. keep not a each 1. "
                "command c if * do a := a and *; for x do skip else x := * end"
                " else skip.")
        self.assertEqual(read(text.encode()), Model(
            (Name("a", 7, 1),), (Name("x", 14, 1),),
            Clause(Shared(0), Row(0)), Clause(Not(Shared(0)), Constant(1)),
            (Command(Name("c", 60, 1), Star(0),
                     (Assignment(Shared(0),
                                 Chain("and", (Shared(0), Star(1)))),
                      For(Row(0), (Skip(),),
                          (Assignment(Row(0), Star(2)),))),
                     (Skip(),), 3),)))

    def test_names_in_other_cases(self):
        """Each is spelled as it is declared."""
        text = ("shared Page. row dIrty. start pAGE each DIRTY. "
                "keep page each 1. command Wash if PAGE do page := Page; "
                "for dirty do Dirty := pagE else skip end else skip.")
        self.assertEqual(read(text.encode()), Model(
            (Name("Page", 7, 4),), (Name("dIrty", 17, 5),),
            Clause(Shared(0), Row(0)), Clause(Shared(0), Constant(1)),
            (Command(Name("Wash", 73, 4), Shared(0),
                     (Assignment(Shared(0), Shared(0)),
                      For(Row(0), (Assignment(Row(0), Shared(0)),),
                          (Skip(),))),
                     (Skip(),), 0),)))

    def test_equal_groupings_are_one_model(self):
        def start(expression):
            text = f"shared a b. row. start {expression}".ljust(60)
            return read((text + "each 1. keep 1 each 1. " + ANY).encode())
        self.assertEqual(start("(a or b) or a"), start("a or b or a"))
        self.assertNotEqual(start("a or (b or a)"), start("a or b or a"))


# The notation as rules, straight from its description.
RULES = {
    "text": ["shared names . row names . start either each either . "
             "keep either each either . commands"],
    "names": ["", "names name"],
    "commands": ["command-rule", "commands command-rule"],
    "command-rule": ["command name if either do items else items ."],
    "items": ["item", "items ; item"],
    "item": ["skip", "name := either",
             "for either do row-items else row-items end"],
    "row-items": ["row-item", "row-items ; row-item"],
    "row-item": ["skip", "name := either"],
    "either": ["both", "either or both"],
    "both": ["factor", "both and factor"],
    "factor": ["0", "1", "*", "name", "not factor", "( either )"],
}
RULES = {left: [tuple(right.split()) for right in rights]
         for left, rights in RULES.items()}
EMPTY = {"names"}
KINDS = sorted(set(RESERVED) | {".", ";", ":=", ":", "=", "(", ")", "*",
                                "0", "1", "name", "misfit"})


class Earley:
    """Recognises prefixes of texts, one kind of token at a time.

    Every rule can be finished somehow, so a prefix can be continued to a
    whole text exactly as long as the last set of items is not empty.
    """

    def __init__(self):
        self.sets = []
        self.close({("text", right, 0, 0) for right in RULES["text"]})

    def close(self, items):
        """Adds a set with all that follows from the given items."""
        here = len(self.sets)
        self.sets.append(items)
        waiting = list(items)
        while waiting:
            left, right, dot, origin = waiting.pop()
            if dot == len(right):
                found = [(l, r, d + 1, o) for l, r, d, o in self.sets[origin]
                         if d < len(r) and r[d] == left]
            elif right[dot] in RULES:
                found = [(right[dot], way, 0, here)
                         for way in RULES[right[dot]]]
                if right[dot] in EMPTY:
                    found.append((left, right, dot + 1, origin))
            else:
                continue
            for item in found:
                if item not in items:
                    items.add(item)
                    waiting.append(item)

    def allowed(self):
        return {right[dot] for _, right, dot, _ in self.sets[-1]
                if dot < len(right) and right[dot] not in RULES}

    def feed(self, kind):
        self.close({(left, right, dot + 1, origin)
                    for left, right, dot, origin in self.sets[-1]
                    if dot < len(right) and right[dot] == kind})

    def whole(self):
        return any(left == "text" and dot == len(right)
                   for left, right, dot, _ in self.sets[-1])


SPELLED = """
shared a b . row x . start a each not ( x or b ) and 1 .
keep 0 each a . command c if * or b do a := 1 ; for x do x := b ; skip
else skip ; x := 0 end ; skip else skip ; for 1 do skip else x := 1 end ;
b := ( 1 ) . command d if 0 do for 0 do skip else skip end
else for 1 do skip else skip end .
""".split()
SPELLINGS = {"name": ("a", "b", "x", "c", "d", "q", "A", "X"),
             "misfit": ("2", "00", "_a", "1x", "9_", "Shared", "anD", "IF")}
SAMPLE = ["name" if word in SPELLINGS["name"] else word for word in SPELLED]


class Viable(unittest.TestCase):
    """A refusal 3 stands where what came before can be continued to a text
    and with this token no longer can."""

    def stop(self, kinds):
        """The number of tokens taken by the automaton, or None for all."""
        text = " ".join(SPELLINGS.get(kind, (kind,))[0] for kind in kinds)
        tokens = cut(text.encode())
        _, stop = walk(tokens)
        return None if stop is None else tokens.index(stop)

    def test_each_next_token(self):
        recogniser = Earley()
        for count in range(len(SAMPLE) + 1):
            allowed = recogniser.allowed()
            taken = {kind for kind in KINDS
                     if self.stop(SAMPLE[:count] + [kind]) != count}
            self.assertEqual(taken, allowed, SAMPLE[:count])
            self.assertEqual(self.stop(SAMPLE[:count]) is None,
                             recogniser.whole())
            if count < len(SAMPLE):
                self.assertIn(SAMPLE[count], allowed)
                recogniser.feed(SAMPLE[count])

    def test_random_tokens(self):
        rng = random.Random(20)
        outcomes = set()
        for _ in range(1500):
            kept = rng.choice([rng.randrange(len(SAMPLE)), len(SAMPLE)])
            kinds = SAMPLE[:kept]
            recogniser = Earley()
            for kind in kinds:
                recogniser.feed(kind)
            fault = None
            for _ in range(rng.randrange(12)):
                allowed = sorted(recogniser.allowed())
                kind = rng.choice(KINDS)
                if allowed and rng.random() < 0.85:
                    kind = rng.choice(allowed)
                if fault is None and kind not in allowed:
                    fault = len(kinds)
                kinds = kinds + [kind]
                if fault is None:
                    recogniser.feed(kind)
            words = SPELLED[:kept] + [
                rng.choice(SPELLINGS.get(kind, (kind,)))
                for kind in kinds[kept:]]
            outcomes.add(self.judge(rng, words, fault, recogniser.whole()))
        self.assertEqual(outcomes, {3, 4, 5, 6, None})

    def judge(self, rng, words, fault, whole):
        """Compares the reader's answer; other faults may only come before."""
        text = ""
        place = None
        for number, word in enumerate(words):
            text += rng.choice([" ", "\n", "  "])
            if number == fault:
                place = len(text)
            text += word
        text += rng.choice(["", " "])
        if fault is None and not whole:
            place = len(text)
        data = text.encode()
        _, stop = walk(cut(data))
        self.assertEqual(None if stop is None else stop.place, place, text)
        answer = read(data)
        if isinstance(answer, Model):
            self.assertIsNone(place, text)
            return None
        if answer.number == 3:
            self.assertEqual(answer.place, place, text)
        else:
            self.assertIn(answer.number, (4, 5, 6))
            self.assertTrue(place is None or answer.place < place, text)
        return answer.number

    def test_kinds_are_all_met(self):
        self.assertEqual(len(KINDS), 15 + 8 + 2 + 2)
        kinds = {token.kind for token in cut(b"a 2 \t 0")}
        self.assertLessEqual({NAME, MISFIT, BAD, "0"}, kinds)


class PythonExpressions(unittest.TestCase):
    """Python's not, and, or bind and group in the same way."""

    def codes(self, tree):
        if isinstance(tree, ast.Name):
            return [{"a": 32, "b": 33}[tree.id]]
        if isinstance(tree, ast.Constant):
            return [tree.value]
        if isinstance(tree, ast.UnaryOp):
            return self.codes(tree.operand) + [96]
        operator = 128 if isinstance(tree.op, ast.And) else 160
        found = self.codes(tree.values[0])
        for value in tree.values[1:]:
            found += self.codes(value) + [operator]
        return found

    def expression(self, rng, depth):
        way = rng.random()
        if depth == 0 or way < 0.2:
            return rng.choice(["a", "b", "0", "1"])
        if way < 0.4:
            return "not " + self.expression(rng, depth - 1)
        if way < 0.6:
            return f"({self.expression(rng, depth - 1)})"
        operator = rng.choice(["and", "or"])
        return (f"{self.expression(rng, depth - 1)} {operator} "
                f"{self.expression(rng, depth - 1)}")

    def test_random_expressions(self):
        rng = random.Random(7)
        for _ in range(400):
            text = self.expression(rng, rng.randint(1, 7))
            expected = self.codes(ast.parse(text, mode="eval").body)
            self.assertEqual(start_code(text), expected, text)


if __name__ == "__main__":
    unittest.main()
