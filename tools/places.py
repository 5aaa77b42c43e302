#!/usr/bin/env python3
"""Lists places of the sources that a plainer form of the language may serve.

    python3 tools/places.py [--root DIR] [POINT..]

POINT is one of 1 to 8 (all, if none is named); docs/DESIGN-PASS.md says what each looks for. A place is a line
`POINT KIND FILE:LINE WHAT`; behind the places of a point stands how many there are of each kind, and in all.
It reads files as text, so that it finds candidates and proves nothing.
"""

import argparse
import collections
import pathlib
import re
import sys


def sources(root):
    """The files of code, but for tests, in the order of their paths."""
    return [path for path in sorted(root.glob("crates/*/src/**/*.rt")) if path.stem != "tests"]


def line_of(text, at):
    return text.count("\n", 0, at) + 1


FUNCTION = re.compile(r"^( *)(?:pub )?(?:extern \"C\" )?fn (\w+)", re.M)


def functions(text):
    """Each function: its name, where it begins, its head with the clauses, and its body."""
    for found in FUNCTION.finditer(text):
        indent = found.group(1)
        end = text.find("\n%s}\n" % indent, found.end())
        if end < 0:
            continue
        whole = text[found.start() : end + len(indent) + 3]
        begin = whole.find("\n%s{\n" % indent)
        if begin < 0:
            begin = whole.find(" {\n")
        if begin < 0:
            continue
        yield found.group(2), found.start(), whole[:begin], whole[begin:]


def enums(text):
    for found in re.finditer(r"^(?:pub )?enum (\w+) \{(.*?)^\}", text, re.M | re.S):
        yield found.group(1), found.start(), re.findall(r"^    (\w+)(\([^)]*\))?", found.group(2), re.M)


def structs(text):
    for found in re.finditer(r"^(?:pub )?struct (\w+) \{(.*?)^\}", text, re.M | re.S):
        yield found.group(1), found.start(), re.findall(r"^    (?:pub )?(\w+): ([^\n]+),", found.group(2), re.M)


REFUSING = {"Refused", "Bad", "Told", "Failed", "Unread", "Nothing", "End", "Unwritten"}


def options(path, text):
    """1: own enums of the shape of Option or Result, flags beside values, numbers for kinds or refusals, numbers that stand for none."""
    for name, at, variants in enums(text):
        if any(variant in REFUSING for variant, _ in variants) and len(variants) > 1:
            yield "enum", at, name + " { " + ", ".join(v + (f or "") for v, f in variants) + " }"
    for name, at, fields in structs(text):
        if any(kind == "bool" or kind == "Answer" for _, kind in fields) and len(fields) > 1:
            yield "flag", at, name + " { " + ", ".join(field for field, _ in fields) + " }"
    for found in re.finditer(r"\b(?:Refused|Bad|refusal|put_refusal|pack)\((?:out, 0, )?\d+,[^\n]*", text):
        yield "refusal", found.start(), found.group(0).strip()
    for found in re.finditer(r"^(?:pub )?const (\w+): (?:usize|u16) = (\d+|[A-Z]+);$", text, re.M):
        near = text[max(0, found.start() - 260) : found.start()]
        if re.search(r"(kinds|code words)", near, re.I) or re.search(r"const \w+: %s = \d+;\n\n$" % ("usize|u16"), near) and "kinds" in text:
            yield "kind", found.start(), found.group(0)
    for found in re.finditer(r"\bmatch (?:k|kind) \{\n\s+0 =>", text):
        yield "kind", found.start(), "match on numbers of kinds"
    for found in re.finditer(r"^ *// [^\n]*(?:for none|where it is none|wrong with a question by itself, or 0|first refusal, or 0|or 0 where it is missing)[^\n]*\n", text, re.M):
        yield "none", found.start(), found.group(0).strip()


WORDS = re.compile(r"b'[^']+'|b\"[^\"]*\"|\b\d[\w]*\b|\b[A-Za-z_]\w*\b")
KEPT = {"let", "mut", "if", "else", "return", "match", "while", "loop", "for", "in", "break", "true", "false", "as", "fn", "pub", "self", "usize", "u64", "u32", "u16", "u8", "bool", "Some", "None", "Ok", "Err"}


def shape(body):
    """The body with names and numbers taken out."""
    body = re.sub(r"//[^\n]*", "", body)
    return re.sub(r"\s+", " ", WORDS.sub(lambda m: m.group(0) if m.group(0) in KEPT else "_", body)).strip()


def twins(files):
    """2: functions whose bodies are alike but for names and numbers, and so are the numbers of their parameters."""
    groups = collections.defaultdict(list)
    for path, text in files:
        for name, at, head, body in functions(text):
            if body.count("\n") < 6 and len(shape(body)) < 60:
                continue
            groups[shape(body)].append((path, line_of(text, at), name))
    for group in groups.values():
        if len(group) > 1:
            for path, line, name in group:
                others = ", ".join("%s" % other for _, _, other in group if other != name) or "functions of the same name"
                yield "twin", path, line, "%s, like %s" % (name, others)


def loops(path, text):
    """3: loops that count an index by hand."""
    for found in re.finditer(r"^( *)(?:'\w+: )?(while [^\n]*|loop) \{\n(.*?)^\1\}", text, re.M | re.S):
        step = re.search(r"^\s*(\w+) (?:\+=|-=) (?:1|8|10);|^\s*(\w+) = \2 [+-] 1;", found.group(3), re.M)
        if step:
            yield "loop", found.start(), found.group(2)
    for found in re.finditer(r"^( *)(?:'\w+: )?for \w+ in [^\n]* \{\n(.*?)^\1\}", text, re.M | re.S):
        if re.search(r"^\s*(?:at|p) \+= 10;", found.group(2), re.M):
            yield "beside", found.start(), "an index counted beside `for`"


def conversions(path, text):
    """4: equality, order, copying, conversion and printing by hand."""
    for name, at, head, body in functions(text):
        inner = re.sub(r"\s+", " ", re.sub(r"//[^\n]*", "", body)).strip(" {}").strip()
        if re.fullmatch(r"\w+ as \w+", inner):
            yield "cast", at, "%s: %s" % (name, inner)
        elif re.fullmatch(r"if (\w+) < (\w+) \{ (?:return )?\w+;? \} (?:else \{ )?[\w ]+ ?\}?", inner) and name != "met_bit":
            yield "order", at, "%s: %s" % (name, inner)
        elif re.fullmatch(r"if n < by \{ return 0; \} n - by", inner):
            yield "order", at, name
        if len(re.findall(r"b'[AZaz]'", inner)) >= 1 and re.search(r"[<>]=? ?b'|b'.' ?<", inner):
            yield "letter", at, name
    for found in re.finditer(r"^[^\n/]*/ 256[^\n]*$", text, re.M):
        yield "bytes", found.start(), found.group(0).strip()
    for found in re.finditer(r"^[^\n/]*256 \* [^\n]*(?:\[|two_at|digit|wide)[^\n]*$", text, re.M):
        yield "bytes", found.start(), found.group(0).strip()
    for found in re.finditer(r"^ +(\w+): \1,$", text, re.M):
        yield "shorthand", found.start(), found.group(0).strip()


def conjuncts(clause):
    parts, depth, begin = [], 0, 0
    for at, sign in enumerate(clause):
        depth += sign in "([{"
        depth -= sign in ")]}"
        if sign == "×" and depth == 0:
            parts.append(clause[begin:at])
            begin = at + 1
    parts.append(clause[begin:])
    for part in parts:
        part = part.strip()
        if part.startswith("(") and part.endswith(")"):
            yield from conjuncts(part[1:-1])
        elif part:
            yield part


def facts(files):
    """5: facts in the contracts of three functions or more, and parameters that travel together in as many."""
    told = collections.defaultdict(list)
    together = collections.defaultdict(list)
    for path, text in files:
        crate = path.parts[-3] if path.parts[-2] == "src" else path.parts[-4]
        for name, at, head, body in functions(text):
            for clause in re.findall(r"requires \w* ?\{ (.*) \}", head):
                for part in conjuncts(clause):
                    told[part].append((path, line_of(text, at), name))
            named = re.findall(r"(\w+): ([^,()]+?)(?=,|\)|\n)", head.split("ensures")[0].split("requires")[0])
            pairs = [(n, re.sub(r"\s+", " ", t).strip()) for n, t in named]
            for i, one in enumerate(pairs):
                for other in pairs[i + 1 :]:
                    together[(crate, one, other)].append((path, line_of(text, at), name))
    for fact, places in sorted(told.items(), key=lambda item: -len(item[1])):
        if len(places) >= 3:
            for path, line, name in places:
                yield "fact", path, line, "%s: %s" % (name, fact)
    for (crate, one, other), places in sorted(together.items(), key=lambda item: -len(item[1])):
        if len(places) >= 5:
            path, line, name = places[0]
            yield "together", path, line, "%s: %s and %s: %s in %d functions of %s" % (one + other + (len(places), crate))


def buffers(path, text):
    """6: buffers with a length or a place beside them, parallel arrays."""
    for name, at, head, body in functions(text):
        head = re.sub(r"\s+", " ", head)
        found = re.search(r"(\w+): &(mut )?(?:\[\w+\]|Line|Lines|Report|\[\w+; \d+\]), (at|p|n|len): usize", head)
        if found:
            yield "beside", at, "%s: %s, %s" % (name, found.group(1), found.group(3))
    for found in re.finditer(r"names\[28 \+", text):
        yield "parallel", found.start(), "places and lengths of names in one array"


def switches(path, text):
    """7: a switch on which step to run."""
    for found in re.finditer(r"match (direction|question) \{", text):
        yield "switch", found.start(), found.group(0)
    for name, at, head, body in functions(text):
        if re.search(r"in 0\.\.u64::MAX", body):
            yield "driver", at, "%s: a loop over texts of its own" % name


def answers(root):
    """8: answers of one word, and answers that three functions or more repeat to the letter."""
    repeated = collections.defaultdict(list)
    for path in sorted(root.glob("crates/*/proofs/**/Answers.antt")):
        text = path.read_text()
        for found in re.finditer(r"^([\w'-]+)((?: \w+)*) = (search rules|refl|search|omega arith)$", text, re.M):
            yield "word", path, line_of(text, found.start()), found.group(0)
        for found in re.finditer(r"^([\w'-]+)((?: \w+)*) =\s*(.{40,}(?:\n {2,}.*)*)$", text, re.M):
            repeated[re.sub(r"\s+", " ", found.group(3))].append((path, line_of(text, found.start()), found.group(1)))
    for told, places in repeated.items():
        if len(places) >= 3:
            for path, line, name in places:
                yield "repeated", path, line, "%s: %s" % (name, told[:80])


def main():
    parser = argparse.ArgumentParser(description=__doc__.splitlines()[0])
    parser.add_argument("--root", type=pathlib.Path, default=pathlib.Path("."))
    parser.add_argument("points", nargs="*", type=int)
    given = parser.parse_args()
    files = [(path, path.read_text()) for path in sources(given.root)]
    by_file = {1: options, 3: loops, 4: conversions, 6: buffers, 7: switches}
    for point in given.points or range(1, 9):
        if point in by_file:
            places = [(kind, path, line_of(text, at), what) for path, text in files for kind, at, what in by_file[point](path, text)]
        elif point == 2:
            places = list(twins(files))
        elif point == 5:
            places = list(facts(files))
        else:
            places = list(answers(given.root))
        for kind, path, line, what in places:
            print(point, kind, "%s:%d" % (path.relative_to(given.root), line), what)
        kinds = collections.Counter(kind for kind, *_ in places)
        print("%d: %s; in all %d" % (point, ", ".join("%s %d" % pair for pair in sorted(kinds.items())), len(places)))


if __name__ == "__main__":
    try:
        main()
    except BrokenPipeError:
        sys.exit(0)
