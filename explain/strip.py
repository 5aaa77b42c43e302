"""A long run as a strip: a lane for each command, with a mark for each step
that it makes, so that close steps of one command are seen together."""

import sentences

# The table of steps shows a run that is not longer as well.
LONGEST_WITHOUT = 20
# Steps between two numbers of the scale, and how many numbers have room.
UNITS = (5, 10, 20, 50, 100, 200, 500)
MOST_NUMBERS = 8


def has_strip(lines):
    return len(lines) - 1 > LONGEST_WITHOUT


def lanes(lines, model):
    """In the order of the text, also of commands that make no step."""
    return [lane(command.name, [line.number for line in lines
                                if line.command == command.name], lines)
            for command in model.commands]


def lane(name, numbers, lines):
    """The style cuts a line into marks of one step each, so consecutive steps
    have one line."""
    path = "".join(f"M{first - 1} 1h{count}"
                   for first, count in consecutive(numbers))
    return (f'<tr><th scope="row"><div>{name} <span>{len(numbers):,}</span>'
            f'</div></th><td><svg viewBox="0 0 {len(lines) - 1} 2" '
            'preserveAspectRatio="none" role="img">'
            f'<title>{sentences.lane(name, numbers)}</title>'
            f'<path d="{path}"/></svg></td></tr>')


def consecutive(numbers):
    """Ascending numbers, where those that follow each other are told by the
    first and by how many they are."""
    found = []
    for number in numbers:
        if found and number == sum(found[-1]):
            found[-1] = found[-1][0], found[-1][1] + 1
        else:
            found.append((number, 1))
    return found


def scale(last):
    """Numbers of steps, each with a tick at the end of its step's mark."""
    unit = next(unit for unit in UNITS if last // unit <= MOST_NUMBERS)
    places = ((number, f"{100 * number / last:.4g}%")
              for number in range(unit, last + 1, unit))
    return "".join(f'<text x="{place}" y="70%">{number:,}</text>'
                   f'<line x1="{place}" x2="{place}" y1="75%" y2="100%"/>'
                   for number, place in places)
