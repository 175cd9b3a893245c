"""Changes of the text of a save, most of which make it no text of a saved state."""
import re

from tests.random_sources.draw import Draw

SOLVERS = [b'dantzig', b'BLAND', b'steepest', b'Any', b'none', b'None', b'x' * 64, b'a-b']
PART = re.compile(rb'(set|parameter|variable|equation) \w+ (\d+)')
# What follows the labels of a row.
ENDS = {b'set': 1, b'parameter': 1, b'variable': 4, b'equation': 4}
LIMIT = 2 ** 127 - 1
# Numbers within the limit and over it, and what is no number of a save.
VALUES = [b'%d' % LIMIT, b'-%d' % LIMIT, b'1/%d' % LIMIT, b'%d' % (LIMIT + 1), b'-%d' % (LIMIT + 1), b'1/%d' % (LIMIT + 1), b'%d/3' % (LIMIT + 1),
          b'9' * 39, b'1' + b'0' * 39, b'3/6', b'5/0', b'7/2', b'0', b'+INF', b'-INF', b'NA']
MOST = 2 ** 31 - 1
# The place of an option in the line `settings`, and a number that is at its limit or over it.
SETTINGS = [(4, 9), (1, MOST + 1), (2, MOST + 1), (3, MOST + 1), (4, 8), (1, MOST), (2, MOST), (3, MOST), (4, 0)]
STATUSES = {'model': [0, 1, 2, 3, 4, 6, 7, 13], 'solver': [0, 1, 2, 4]}
# What an element of a variable or an equation has that is not listed.
ABSENT = {b'variable': [b'0 +INF 0 0', b'-INF +INF 0 0', b'-INF 0 0 0'], b'equation': [b'-INF +INF 0 0']}


def damaged(text: bytes, seed: int) -> bytes:
    """The save with one change. Seeds go through the ways of changing it in turn."""
    draw = Draw(seed)
    lines = text.split(b'\n')
    ways = [lambda: line_left_out(draw, lines), lambda: row_changed(draw, lines, True), lambda: number_changed(draw, text),
            lambda: value_changed(draw, lines), lambda: row_changed(draw, lines, False), lambda: solver_changed(draw, text, b'cplex'),
            lambda: word_changed(draw, text), lambda: row_changed(draw, lines, True), lambda: lines_exchanged(draw, lines),
            lambda: value_changed(draw, lines), lambda: text[:draw.between(0, len(text))], lambda: row_changed(draw, lines, False),
            lambda: line_twice(draw, lines), lambda: row_changed(draw, lines, True), lambda: number_changed(draw, text),
            lambda: solver_changed(draw, text, draw.pick(SOLVERS)), lambda: value_changed(draw, lines), lambda: word_changed(draw, text),
            lambda: row_changed(draw, lines, False), lambda: text + draw.pick([b' ', b'\n', b'end\n', b'x']),
            lambda: setting_changed(lines, seed // len(ways)), lambda: statuses_changed(draw, lines), lambda: absent_listed(draw, lines, [b'parameter']),
            lambda: absent_listed(draw, lines, [b'variable', b'equation'])]
    return ways[seed % len(ways)]()


def solver_changed(draw: Draw, text: bytes, name: bytes) -> bytes:
    """Another solver's name."""
    return re.sub(rb'(\nsettings \d+ \d+ \d+ \d+ \w+) \w+\n', lambda it: it.group(1) + b' ' + name + b'\n', text)


def line_left_out(draw: Draw, lines: list[bytes]) -> bytes:
    """A line less."""
    place = draw.between(0, len(lines) - 1)
    return b'\n'.join(lines[:place] + lines[place + 1:])


def line_twice(draw: Draw, lines: list[bytes]) -> bytes:
    """A line written twice."""
    place = draw.between(0, len(lines) - 1)
    return b'\n'.join(lines[:place] + [lines[place]] + lines[place:])


def lines_exchanged(draw: Draw, lines: list[bytes]) -> bytes:
    """A line and the next one in the other order."""
    place = draw.between(0, max(0, len(lines) - 2))
    lines[place:place + 2] = reversed(lines[place:place + 2])
    return b'\n'.join(lines)


def settings_at(lines: list[bytes]) -> int:
    """The place of the line `settings`; the source is before it."""
    return max((place for place, line in enumerate(lines) if line.startswith(b'settings ')), default=0)


def setting_changed(lines: list[bytes], turn: int) -> bytes:
    """A number of an option, at its limit or over it, in turn."""
    place = settings_at(lines)
    words = lines[place].split(b' ')
    option, number = SETTINGS[turn % len(SETTINGS)]
    words[min(option, len(words) - 1)] = b'%d' % number
    lines[place] = b' '.join(words)
    return b'\n'.join(lines)


def statuses_changed(draw: Draw, lines: list[bytes]) -> bytes:
    """The statuses of a model, which may not go together."""
    models = [place for place, line in enumerate(lines) if place > settings_at(lines) and line.startswith(b'model ')]
    if not models:
        return word_changed(draw, b'\n'.join(lines))
    place = draw.pick(models)
    name = lines[place].split(b' ')[1]
    lines[place] = b'model %s %d %d' % (name, draw.pick(STATUSES['model']), draw.pick(STATUSES['solver']))
    return b'\n'.join(lines)


def parts(lines: list[bytes]) -> list[tuple[bytes, int, int]]:
    """The kind of each name that has rows, and where these begin and end."""
    after = settings_at(lines)
    found = [(place, PART.fullmatch(line)) for place, line in enumerate(lines) if place > after]
    return [(it.group(1), place + 1, place + 1 + int(it.group(2))) for place, it in found if it and int(it.group(2))]


def absent_listed(draw: Draw, lines: list[bytes], kinds: list[bytes]) -> bytes:
    """A row of a name of these kinds, with what is not listed in a save: 0, or the values at the
    declaration.
    """
    found = [it for it in parts(lines) if it[0] in kinds]
    if not found:
        return value_changed(draw, lines)
    kind, start, end = draw.pick(found)
    place = draw.between(start, end - 1)
    labels = lines[place].split(b' ')[:-ENDS[kind]]
    lines[place] = b' '.join(labels + [draw.pick(ABSENT.get(kind, [b'0']))])
    return b'\n'.join(lines)


def row_changed(draw: Draw, lines: list[bytes], is_of_set: bool) -> bytes:
    """A row less, a row more or other labels of one, of a set or of another name; number and order
    of the rows are as they have to be.
    """
    found = parts(lines)
    if found:
        kind, start, end = draw.pick([it for it in found if (it[0] == b'set') == is_of_set] or found)
        rows = [it.split(b' ') for it in lines[start:end]]
        row, way = draw.pick(rows), draw.between(0, 2)
        if way:
            rows.append(other_labels(draw, row, len(row) - ENDS[kind]))
        if way < 2:
            rows.remove(row)
        rows.sort(key=lambda it: [int(label) for label in it[:-ENDS[kind]]])
        head = lines[start - 1].rpartition(b' ')[0]
        lines[start - 1:end] = [b'%s %d' % (head, len(rows)), *(b' '.join(it) for it in rows)]
    return b'\n'.join(lines)


def other_labels(draw: Draw, row: list[bytes], size: int) -> list[bytes]:
    """The row with another label at one of its n positions."""
    place = draw.between(0, max(0, size - 1))
    return [b'%d' % max(0, int(it) + draw.pick([-1, 1, 2, 65535])) if at == place and at < size else it for at, it in enumerate(row)]


def value_changed(draw: Draw, lines: list[bytes]) -> bytes:
    """A number of a parameter, a variable or an equation, at the limit of numbers or over it."""
    found = [it for it in parts(lines) if it[0] != b'set']
    if found:
        kind, start, end = draw.pick(found)
        row = draw.between(start, end - 1)
        words = lines[row].split(b' ')
        words[-draw.between(1, ENDS[kind])] = draw.pick(VALUES)
        lines[row] = b' '.join(words)
    return b'\n'.join(lines)


def number_changed(draw: Draw, text: bytes) -> bytes:
    """A number after the source in another form, or another number."""
    places = [it for it in re.finditer(rb'(?<=[ \n])-?\d+(?:/\d+)?(?=[ \n])', text) if it.start() > text.find(b'\nsettings')]
    if not places:
        return text + b' '
    place = draw.pick(places)
    old = place.group()
    new = draw.pick([b'0' + old, b'+' + old, old + b'/1', old + b'1', b'0', b'1', b'-0', b'2/4', b'1/0', b'7/3', b'NA', b'+INF', b'-INF', b'inf', b'-5', b'2147483648',
                     b'170141183460469231731687303715884105728', b'', b'1/-2', b' ' + old, b'65535'])
    return text[:place.start()] + new + text[place.end():]


def word_changed(draw: Draw, text: bytes) -> bytes:
    """A word of the save, or a name in it, written otherwise."""
    pairs = [(b'gams25 save 1', b'gams25 save 2'), (b' on ', b' off '), (b' off ', b' on '), (b' on ', b' On '), (b' bland\n', b' dantzig\n'), (b' bland\n', b' BLAND\n'),
             (b' bland\n', b' cplex\n'), (b' bland\n', b' none\n'), (b' bland\n', b' 1bland\n'), (b' bland\n', b' None\n'), (b'\nparameter ', b'\nset '),
             (b'\nset ', b'\nSet '), (b'\nend\n', b'\nEnd\n'), (b'\nend\n', b'\nend'), (b'\nvariable ', b'\nequation '), (b'.\n', b'\n'), (b'\nsource ', b'\nsource 1'),
             (b'\nsource ', b'\nsource 0'), (b'settings ', b'settings  '), (b'\n', b'\r\n'), (b' +INF ', b' -INF '), (b' -INF ', b' NA '), (b'\nalias ', b'\nset ')]
    found = [(old, new) for old, new in pairs if old in text]
    if not found:
        return text[:-1]
    old, new = draw.pick(found)
    head, _, tail = text.rpartition(old) if draw.chance(0.6) else text.partition(old)
    return head + new + tail
