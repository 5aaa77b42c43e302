"""How texts are handed to a program that answers one line for each."""

import subprocess


def packed(texts):
    """Each text's length in digits, a newline, its bytes, a newline."""
    return b"".join(b"%d\n%s\n" % (len(text), text) for text in texts)


def packed_with_numbers(entries):
    """Each text as above, then its numbers, in digits, with a newline after
    each."""
    return b"".join(packed([text]) + b"".join(b"%d\n" % number
                                              for number in numbers)
                    for text, *numbers in entries)


def answers(program, data):
    """The program's lines; an unfinished last line is kept as it stands."""
    run = subprocess.run([program], input=data, stdout=subprocess.PIPE,
                         check=False)
    lines = run.stdout.decode("latin-1").split("\n")
    if lines[-1] == "":
        lines.pop()
    if run.returncode != 0:
        lines.append(f"(ended with status {run.returncode})")
    return lines


def gathered(groups):
    """All (label, text's bytes, ..) of the groups, in a fixed order; what was
    met before is left out."""
    seen = set()
    found = []
    for group in groups:
        for detail, text, *rest in group():
            item = (text.encode("latin-1"), *rest)
            if item not in seen:
                seen.add(item)
                found.append((f"{group.__name__}: {detail}", *item))
    return found
