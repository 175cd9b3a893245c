"""Charts as inline SVG: bars by element, lines over an ordered set, a heat map for two indices."""
from fractions import Fraction
from typing import Dict, List, Optional, Sequence, Tuple

from .drawing import Frame, Scale, box, figure, line_between, place, scale_of, short, shortened, text_at

Item = Tuple[str, Fraction]
Series = Tuple[str, List[Optional[Fraction]]]
ZERO = Fraction(0)
LETTER = Fraction(66, 10)         # the width of a letter of a label
BAR, GAP = 16, 6
WIDTH = Fraction(570)            # of a picture; two fit side by side
MOST_BARS = 48
MOST_SERIES = 8
LONGEST = 26                      # letters of a label in a chart


def label_width(labels: Sequence[str]) -> Fraction:
    return max((min(len(it), LONGEST) for it in labels), default=0) * LETTER + 8


def extremes(items: Sequence[Item]) -> str:
    """The least and the greatest element in words."""
    if not items:
        return 'No element.'
    least, most = min(items, key=lambda it: it[1]), max(items, key=lambda it: it[1])
    if len(items) == 1:
        return '1 element, %s with %s.' % (most[0], short(most[1]))
    return '%d elements; the least is %s with %s, the greatest %s with %s.' % (
        len(items), least[0], short(least[1]), most[0], short(most[1]))


def bars(title: str, items: List[Item], kind: str = 'level') -> str:
    """Horizontal bars, one an element; of many the largest."""
    told = extremes(items)
    if len(items) > MOST_BARS:
        kept = set(sorted(range(len(items)), key=lambda k: -abs(items[k][1]))[:MOST_BARS])
        title = '%s: the %d largest of %d' % (title, MOST_BARS, len(items))
        items = [it for k, it in enumerate(items) if k in kept]
    left = label_width([label for label, _ in items])
    right = max((len(short(value)) for _, value in items), default=0) * LETTER + 10
    width = max(Fraction(460), left + right + 200)
    height = len(items) * (BAR + GAP) + 24
    frame = Frame(title, told, width, height)
    scale = scale_of([value for _, value in items], left, width - right, 4)
    for tick in scale.ticks:
        frame.put(line_between(scale.at(tick), 0, scale.at(tick), height - 20, 'zero' if tick == 0 else 'rule'),
                  text_at(scale.at(tick), height - 6, short(tick), 'tick', 'middle'))
    for k, (label, value) in enumerate(items):
        y = k * (BAR + GAP) + 2
        start, end = sorted((scale.at(ZERO), scale.at(value)))
        frame.put(text_at(left - 6, y + BAR - 4, shortened(label, LONGEST), 'label', 'end'),
                  box(start, y, end - start, BAR, kind, '%s: %s' % (label, short(value))),
                  text_at(max(end, scale.at(ZERO)) + 4, y + BAR - 4, short(value), 'value'))
    return figure(frame)


def axis(frame: Frame, scale: Scale, labels: Sequence[str], left: Fraction, step: Fraction, bottom: int) -> None:
    """The rules and numbers of the values, and as many labels of the places as fit."""
    for tick in scale.ticks:
        y = scale.at(tick)
        frame.put(line_between(left, y, left + step * (len(labels) - 1), y, 'zero' if tick == 0 else 'rule'),
                  text_at(left - 6, y + 4, short(tick), 'tick', 'end'))
    room = max((min(len(it), 12) for it in labels), default=1) * LETTER + 8
    every = max(1, -(-room // step) if step else 1)
    for k, label in enumerate(labels):
        if k % every == 0:
            frame.put(text_at(left + step * k, bottom + 18, shortened(label, 12), 'tick', 'middle'))


def lines(title: str, labels: Sequence[str], series: List[Series], kind: str = '') -> str:
    """Lines over an ordered set, one a label of the other index, with a legend below."""
    values = [value for _, row in series for value in row if value is not None]
    told = '%s from %s to %s.' % ('%d lines' % len(series) if len(series) > 1 else 'A line', labels[0], labels[-1])
    for name, row in series:
        seen = [value for value in row if value is not None]
        if seen:
            told += ' %s: from %s to %s.' % (name or 'Values', short(min(seen)), short(max(seen)))
    probe = scale_of(values, 0, 1)
    left = max(len(short(tick)) for tick in probe.ticks) * LETTER + 14
    width, bottom = WIDTH, 216
    step = (width - left - 24) / max(1, len(labels) - 1)
    slots = max(1, int((width - left) // (max(min(len(name), LONGEST) for name, _ in series) * LETTER + 44)))
    legend = -(-len(series) // slots) if len(series) > 1 else 0
    frame = Frame(title, told, width, bottom + 28 + legend * 20)
    scale = scale_of(values, bottom, 12)
    axis(frame, scale, labels, left, step, bottom)
    radius = '2.6' if len(labels) <= 16 else '1.7'
    for k, (name, row) in enumerate(series):
        drawn = '%s s%d' % (kind or 'series', k % MOST_SERIES)
        frame.put(*path_of(row, scale, left, step, drawn))
        for place_of, value in enumerate(row):
            if value is not None:
                told_point = '%s%s: %s' % (name + ', ' if name else '', labels[place_of], short(value))
                frame.put('<circle cx="%s" cy="%s" r="%s" class="%s"><title>%s</title></circle>' % (
                    place(left + step * place_of), place(scale.at(value)), radius, drawn, escaped(told_point)))
        if legend:
            x = left + (width - left) / slots * (k % slots)
            y = bottom + 40 + (k // slots) * 20
            frame.put(line_between(x, y - 4, x + 26, y - 4, drawn), text_at(x + 32, y, shortened(name, LONGEST), 'label'))
    return figure(frame)


def path_of(row: Sequence[Optional[Fraction]], scale: Scale, left: Fraction, step: Fraction, kind: str) -> List[str]:
    """The lines between neighbouring places that both have a value."""
    parts: List[str] = []
    points: List[str] = []
    for k, value in enumerate(list(row) + [None]):
        if value is not None:
            points.append('%s,%s' % (place(left + step * k), place(scale.at(value))))
            continue
        if len(points) > 1:
            parts.append('<polyline points="%s" class="%s"/>' % (' '.join(points), kind))
        points = []
    return parts


def escaped(text: str) -> str:
    return text.replace('&', '&amp;').replace('<', '&lt;').replace('>', '&gt;')


def heat(title: str, rows: Sequence[str], columns: Sequence[str], cells: Dict[Tuple[str, str], Fraction],
         kind: str = 'level') -> str:
    """A heat map: the darker a cell, the larger its magnitude; a number below 0 has the other
    colour."""
    items = [('%s, %s' % key, value) for key, value in cells.items()]
    left = label_width(rows)
    texts = max((len(short(value)) for _, value in items), default=1)
    size = max(Fraction(11), min(Fraction(96), (WIDTH - left) / max(1, len(columns))))
    has_numbers = size >= texts * LETTER + 4
    high = 24 if has_numbers else 18
    frame = Frame(title, extremes(items), left + size * len(columns) + 4, 24 + high * len(rows))
    every = max(1, -(-(max((min(len(it), 14) for it in columns), default=1) * LETTER + 4) // size))
    for k, column in enumerate(columns):
        if k % every == 0:
            text = shortened(column, max(6, int(size * every / LETTER)))
            frame.put(text_at(left + size * k + size / 2, 15, text, 'tick', 'middle'))
    most = max((abs(value) for _, value in items), default=ZERO) or Fraction(1)
    for r, row in enumerate(rows):
        y = 22 + high * r
        frame.put(text_at(left - 6, y + high - 8, shortened(row, LONGEST), 'label', 'end'))
        for c, column in enumerate(columns):
            value = cells.get((row, column))
            if value is None:
                continue
            share = abs(value) / most
            drawn = ('below' if value < 0 else kind) if value else 'none'
            strength = 'fill-opacity="%s"' % place2(Fraction(15, 100) + share * Fraction(85, 100)) if value else ''
            x = left + size * c
            frame.put(box(x, y, size - 1, high - 2, drawn, '%s, %s: %s' % (row, column, short(value)), strength))
            if has_numbers and value:
                tone = 'on' if share > Fraction(1, 2) else 'value'
                frame.put(text_at(x + size / 2, y + high - 8, short(value), tone, 'middle'))
    return figure(frame)


def place2(value: Fraction) -> str:
    """A share with two decimals."""
    hundredths = int(value * 100)
    return '%d.%02d' % (hundredths // 100, hundredths % 100)
