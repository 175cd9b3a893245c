"""Reads a page of `gams25-show html` as its reader does, and tells what it shows, a fact a line.

Of a chart it tells the numbers that its marks stand for: from where a bar, a point or a line is,
and from the numbers beside the axis. So what is expected follows from the listing, and not from how
a page is laid out.
"""
import math
from dataclasses import dataclass, field
from html.parser import HTMLParser
from typing import Dict, Iterator, List, Tuple

VOID = ('meta', 'input')
SILENT = ('style', 'script', 'title', 'summary', 'label')
Ticks = List[Tuple[float, float]]        # places of an axis with their numbers


@dataclass
class Element:
    """An element of a page: its name, its attributes, its texts and elements in their order."""
    name: str
    given: Dict[str, str]
    parts: List[object] = field(default_factory=list)

    def text(self) -> str:
        return ''.join(it.text() if isinstance(it, Element) else str(it) for it in self.parts)

    def below(self, *names: str) -> List['Element']:
        """The elements below with one of these names."""
        found: List[Element] = []
        for it in self.parts:
            if isinstance(it, Element):
                found += ([it] if it.name in names else []) + it.below(*names)
        return found

    def number(self, name: str) -> float:
        return float(self.given[name])

    @property
    def kind(self) -> str:
        return self.given.get('class', '')


class Tree(HTMLParser):
    """Builds the elements of a page."""

    def __init__(self, page: str) -> None:
        super().__init__()
        self.open = [Element('page', {})]
        self.feed(page)

    def handle_starttag(self, tag: str, attrs: List[Tuple[str, object]]) -> None:
        element = Element(tag, {key: str(value) for key, value in attrs})
        self.open[-1].parts.append(element)
        if tag not in VOID:
            self.open.append(element)

    def handle_startendtag(self, tag: str, attrs: List[Tuple[str, object]]) -> None:
        self.open[-1].parts.append(Element(tag, {key: str(value) for key, value in attrs}))

    def handle_endtag(self, tag: str) -> None:
        self.open.pop()

    def handle_data(self, data: str) -> None:
        self.open[-1].parts.append(data)


def shown(value: float, extent: float) -> str:
    """A number read off an axis, with the digits that can be read off."""
    return '%g' % (round(value, 2 - math.floor(math.log10(extent))) + 0.0)


class Axis:
    """An axis: the places of its numbers."""

    def __init__(self, ticks: Ticks) -> None:
        self.first, self.last = min(ticks, key=lambda it: it[1]), max(ticks, key=lambda it: it[1])

    def read(self, place: float) -> str:
        extent = self.last[1] - self.first[1]
        return shown(self.first[1] + extent * (place - self.first[0]) / (self.last[0] - self.first[0]), extent)


def titled(element: Element) -> str:
    """The text of a mark for readers who point at it."""
    return ' '.join(it.text() for it in element.below('title'))


def nearest(texts: List[Element], axis: str, place: float) -> str:
    return min(texts, key=lambda it: abs(it.number(axis) - place)).text()


def bar_facts(svg: Element, texts: Dict[str, List[Element]]) -> Iterator[str]:
    axis = Axis([(it.number('x'), float(it.text())) for it in texts['tick']])
    for it in svg.below('rect'):
        middle = it.number('y') + it.number('height') / 2 + 4
        start, end = it.number('x'), it.number('x') + it.number('width')
        yield 'bar %s, %s from %s to %s, %s; %s' % (
            nearest(texts['label'], 'y', middle), it.kind, axis.read(start), axis.read(end), nearest(texts['value'], 'y', middle), titled(it))


def line_facts(svg: Element, texts: Dict[str, List[Element]]) -> Iterator[str]:
    numbers = [it for it in texts['tick'] if it.given.get('text-anchor') == 'end']
    labels = [it for it in texts['tick'] if it.given.get('text-anchor') == 'middle']
    axis = Axis([(it.number('y') - 4, float(it.text())) for it in numbers])
    for it in svg.below('polyline'):
        points = [tuple(map(float, pair.split(','))) for pair in it.given['points'].split(' ')]
        yield 'line %s: %s' % (it.kind, ', '.join('%s %s' % (nearest(labels, 'x', x), axis.read(y)) for x, y in points))
    for it in svg.below('circle'):
        yield 'point %s: %s %s; %s' % (it.kind, nearest(labels, 'x', it.number('cx')), axis.read(it.number('cy')), titled(it))
    for it in svg.below('line'):
        if it.kind not in ('rule', 'zero'):
            beside = [text for text in texts['label'] if text.given['y'] == '%g' % (it.number('y1') + 4)]
            yield 'legend %s: %s' % (it.kind, nearest(beside, 'x', it.number('x2') + 6))


def heat_facts(svg: Element, texts: Dict[str, List[Element]]) -> Iterator[str]:
    written = texts['value'] + texts['on']
    for it in svg.below('rect'):
        x, y = it.number('x') + it.number('width') / 2, it.number('y') + it.number('height') - 2
        inside = [text.text() for text in written if abs(text.number('x') - x) < 2 and abs(text.number('y') - y) < 6]
        yield 'cell %s %s, %s%s%s; %s' % (nearest(texts['label'], 'y', y), nearest(texts['tick'], 'x', x), it.kind,
                                          ' ' + it.given['fill-opacity'] if 'fill-opacity' in it.given else '',
                                          ', ' + inside[0] if inside else '', titled(it))


def chart_facts(figure: Element) -> Iterator[str]:
    """What a chart tells: its title, its text for readers who do not see it, and its marks."""
    svg = figure.below('svg')[0]
    texts: Dict[str, List[Element]] = {'tick': [], 'label': [], 'value': [], 'on': []}
    for it in svg.below('text'):
        texts[it.kind].append(it)
    title, told = svg.below('title')[0], svg.below('desc')[0]
    is_named = svg.given['aria-labelledby'].split() == [title.given['id'], told.given['id']] and svg.given['role'] == 'img'
    yield 'chart %s%s' % (figure.below('figcaption')[0].text(), '' if is_named and title.text() == figure.below('figcaption')[0].text() else ' WITHOUT TITLE')
    yield 'told %s' % told.text()
    if svg.below('circle'):
        yield from line_facts(svg, texts)
    elif texts['tick'] and all(it.number('y') > 15 for it in texts['tick']):
        yield from bar_facts(svg, texts)
    else:
        yield from heat_facts(svg, texts)


def facts(element: Element) -> Iterator[str]:
    """The facts of an element, in the order of the page."""
    for it in element.parts:
        if not isinstance(it, Element) or it.name in SILENT:
            continue
        if it.name == 'figure':
            yield from chart_facts(it)
        elif it.name == 'table':
            for row in it.below('tr'):
                yield ('head ' if row.below('th') else 'row ') + ' | '.join(cell.text() for cell in row.below('th', 'td'))
        elif it.name in ('h1', 'h2', 'h3', 'p'):
            yield '%s %s' % ('.'.join(name for name in (it.name, it.kind) if name), it.text())
        elif it.name == 'pre':
            yield from ('pre %s' % line if line else 'pre' for line in it.text().split('\n'))
        elif it.name == 'div' and it.kind in ('good', 'bad', 'note'):
            yield 'box %s' % it.kind
            yield from facts(it)
        else:
            yield from facts(it)


def facts_of(page: str) -> str:
    """What a page shows, a fact a line."""
    return ''.join(line + '\n' for line in facts(Tree(page).open[0]))
