#!/usr/bin/env python3
"""Respells the repository's own definitions and lemmas, once, behind port.py: words in snake case, a dash between two names alone.

    python3 tools/respell.py

It reads the crates that crates.txt lists and writes over their .antt, .rt and .edit files and over names in backticks of the documents.
A definition in camel case goes to snake case. A lemma keeps a dash where names of definitions or functions stand on both sides of it;
every other dash becomes an underscore. A lemma that would have another's name then ends in `_lem`."""
import collections
import pathlib
import re
import sys

root = pathlib.Path(__file__).resolve().parent.parent
if len(sys.argv) > 1:
    root = pathlib.Path(sys.argv[1])
TOKEN = re.compile(r"[^\s(){}\[\].,;`\"]+")
CAMEL = re.compile(r"[a-z][A-Za-z0-9_'′₀₁₂₃₄₅₆₇₈₉]*")
DASH = re.compile(r"[A-Za-z][\w'′₀₁₂₃₄₅₆₇₈₉]*(?:-[\w'′₀₁₂₃₄₅₆₇₈₉]+)+")
DECLARED = re.compile(r"(?m)^\s*(?:abbrev |unfoldable )?(?:pub )?((?:[^\s(){}\[\].,;:]+ )+): ")
# Words of the library that lemmas are named after.
WORDS = set("length append drop take map set sets get_or reverse slice sum zip all any not cond and or eqb leb ltb max min pow mod div add sub mul suc filter concat".split())


def crates():
    lines = (line.split("#")[0].split(":")[0].split() for line in (root / "crates.txt").read_text().splitlines())
    return [words[0] for words in lines if words]


def files(kind):
    return [p for c in crates() for p in sorted((root / "crates" / c).rglob(kind)) if "out" not in p.relative_to(root / "crates" / c).parts]


def uncommented(text):
    return re.sub(r"(?m)(^|\s)--(?=\s|$).*", r"\1", re.sub(r'"(?:[^"\\\n]|\\.)*"', '""', text))


def humps(name):
    return re.search(r"[a-z0-9'][A-Z]", name) is not None


def snake(name):
    return re.sub(r"(?<=[a-z0-9'])(?=[A-Z])", "_", name).lower()


antt = {p: p.read_text() for p in files("*.antt")}
code = {p: p.read_text() for p in files("*.rt")}
edits = {p: p.read_text() for p in files("*.edit")}
mine = {f"Rattle.{c}." for c in crates()}

# Names that other libraries' modules give.
given = set()
for text in (*antt.values(), *code.values()):
    for module, names in re.findall(r"\buse ([\w.]+?)\.\{([^}]*)\}", text):
        if not any(module.startswith(m) for m in mine) and re.match(r"[A-Za-z]", module) and not re.match(r"[A-Z]\w*$", module):
            for name in names.split(","):
                given.add(name.split(" as ")[0].strip())


def in_function(path):
    """Whether a file is of one function's proof, where names may be those that the check made."""
    parts = path.parts
    return "proofs" in parts and parts.index("proofs") < len(parts) - 2


tokens = collections.Counter()
declared = set()
proved = set()
for path, text in antt.items():
    bare = uncommented(text)
    tokens.update(TOKEN.findall(bare))
    if not in_function(path):
        for names in DECLARED.findall(bare):
            declared.update(names.split())
            if "specs" not in path.parts:
                proved.update(names.split())
for text in code.values():
    tokens.update(re.findall(r"\w+", text))
functions = {f for text in code.values() for f in re.findall(r"\bfn (\w+)", text)}

renamed = {}
for token in tokens:
    if CAMEL.fullmatch(token) and humps(token) and token not in given:
        renamed[token] = snake(token)
named = WORDS | functions
for path, text in antt.items():
    if "specs" in path.parts and "proofs" not in path.parts:
        for names in DECLARED.findall(uncommented(text)):
            named.update(renamed.get(n, n) for n in names.split())


def lemma(name):
    parts = [renamed.get(p, snake(p) if CAMEL.fullmatch(p) and humps(p) else p) for p in name.split("-")]
    out = parts[0]
    for before, after in zip(parts, parts[1:]):
        out += ("-" if before in named and after in named else "_") + after
    return out


for token in sorted(declared):
    if DASH.fullmatch(token) and token not in given:
        new = lemma(token)
        if new != token:
            renamed[token] = new

# Where a lemma would have a definition's name, or two lemmas one, it is told apart by `_lem`.
by_new = collections.defaultdict(list)
for old, new in renamed.items():
    by_new[new].append(old)
for new, olds in by_new.items():
    lemmas = sorted(old for old in olds if "-" in old)
    spoken = len(olds) - len(lemmas)
    if new in tokens and new not in renamed:
        if new in proved:
            lemmas.append(new)
        elif new in declared:
            spoken += 1
    if spoken + len(lemmas) > 1:
        for i, old in enumerate(lemmas if spoken else lemmas[1:]):
            renamed[old] = new + "_lem" * (i + 1)
words = {old: new for old, new in renamed.items() if CAMEL.fullmatch(old) and humps(old)}


def respelt(text, function):
    out = []
    at = 0
    for m in TOKEN.finditer(text):
        token = m.group(0)
        new = renamed.get(token)
        if new is None:
            continue
        if token not in words:
            before = text[: m.start()]
            if before.endswith(".") and function and not re.search(r"(?:^|[^\w.'])[A-Z]\w*\.$", before[-40:]):
                continue
        out.append(text[at : m.start()] + new)
        at = m.end()
    return "".join(out) + text[at:]


def respelt_antt(text, function):
    lines = []
    for line in text.split("\n"):
        cut = re.search(r"(?:^|\s)--(?=\s|$)", line)
        body, said = (line, "") if cut is None else (line[: cut.start()], line[cut.start() :])
        parts = re.split(r'("(?:[^"\\]|\\.)*")', body)
        parts = [part if i % 2 else respelt(part, function) for i, part in enumerate(parts)]
        lines.append("".join(parts) + respelt_words(said))
    return "\n".join(lines)


def respelt_words(text):
    """Names in what is said: those in camel case, and the others in backticks."""
    text = re.sub(r"(?<![\w'-])[a-z][\w'′]*", lambda m: words.get(m.group(0), m.group(0)), text)
    return re.sub(r"`([^`\s]+)`", lambda m: f"`{renamed.get(m.group(1), m.group(1))}`", text)


def respelt_rt(text):
    """Strings stay as they are."""
    parts = re.split(r'("(?:[^"\\]|\\.)*")', text)
    return "".join(part if i % 2 else respelt_code(part) for i, part in enumerate(parts))


def respelt_code(text):
    return re.sub(r"\b[a-z][A-Za-z0-9_]*\b'?", lambda m: words.get(m.group(0), m.group(0)), text)


def respelt_edit(text, function):
    lines = []
    kind = "antt"
    for line in text.split("\n"):
        if line.startswith("file: "):
            kind = line.rsplit(".", 1)[1].strip()
            lines.append(line)
        elif line.startswith(("old: ", "new: ")):
            body = line[5:].replace("′", "'")
            lines.append(line[:5] + (respelt_antt(body, False) if kind == "antt" else respelt_rt(body)))
        else:
            lines.append(respelt_words(line))
    return "\n".join(lines)


if "--show" in sys.argv:
    for old, new in sorted(renamed.items()):
        print(old, new)
    for new, olds in sorted(collections.Counter(renamed.values()).items()):
        if olds > 1 or new in given or (new in tokens and new not in renamed):
            print("SEE", new, olds, new in given, tokens[new])
    sys.exit()
count = 0
for path, text in antt.items():
    new = respelt_antt(text, in_function(path))
    if new != text:
        path.write_text(new)
        count += 1
for path, text in code.items():
    new = respelt_rt(text)
    if new != text:
        path.write_text(new)
        count += 1
for path, text in edits.items():
    new = respelt_edit(text, False)
    if new != text:
        path.write_text(new)
        count += 1
for path in [root / "README.md", root / "CONTRIBUTING.md", *sorted((root / "docs").rglob("*.md"))]:
    text = path.read_text()
    new = re.sub(r"`[^`\n]+`", lambda m: respelt_words(m.group(0)), text)
    if new != text:
        path.write_text(new)
        count += 1
print(f"respelt: {len(renamed)} names in {count} files")
