"""Geometry of charts in exact numbers: scales, ticks, and SVG elements as text."""
from dataclasses import dataclass
from fractions import Fraction
from html import escape
from typing import List, Sequence, Union

from .exact import decimal_text, is_terminating, plain_text

Number = Union[int, Fraction]
STEPS = (Fraction(1), Fraction(2), Fraction(5, 2), Fraction(5), Fraction(10))


def place(value: Number) -> str:
    """A coordinate with one decimal."""
    text = decimal_text(Fraction(value), 1)
    return text[:-2] if text.endswith('.0') else text


def short(value: Fraction) -> str:
    """A number beside a mark: at most three decimals."""
    if is_terminating(value) and '/' not in plain_text(value, 3):
        return plain_text(value, 3)
    return decimal_text(value)


def tick_step(extent: Fraction, most: int) -> Fraction:
    """The least round step that divides an extent in at most n parts."""
    power = Fraction(1)
    while power * 10 * most <= extent:
        power *= 10
    while power * most > extent * 10:
        power /= 10
    return next((power * step for step in STEPS if power * step * most >= extent), power * 10)


@dataclass
class Scale:
    """Maps values to places between two ends; 0 is always within the values."""
    least: Fraction
    most: Fraction
    start: Fraction
    end: Fraction
    ticks: List[Fraction]

    def at(self, value: Fraction) -> Fraction:
        return self.start + (self.end - self.start) * (value - self.least) / (self.most - self.least)


def scale_of(values: Sequence[Fraction], start: Number, end: Number, parts: int = 5) -> Scale:
    """A scale over these values and 0, with round ends."""
    least, most = min([Fraction(0), *values]), max([Fraction(0), *values])
    if least == most:
        most = least + 1
    step = tick_step(most - least, parts)
    low = (least / step).__floor__() * step
    high = -((-most / step).__floor__()) * step
    count = int((high - low) / step)
    return Scale(low, high, Fraction(start), Fraction(end), [low + step * k for k in range(count + 1)])


def text_at(x: Number, y: Number, text: str, kind: str = '', anchor: str = 'start') -> str:
    """A text in a chart."""
    named = ' class="%s"' % kind if kind else ''
    turned = ' text-anchor="%s"' % anchor if anchor != 'start' else ''
    return '<text x="%s" y="%s"%s%s>%s</text>' % (place(x), place(y), named, turned, escape(text))


def line_between(x1: Number, y1: Number, x2: Number, y2: Number, kind: str) -> str:
    return '<line x1="%s" y1="%s" x2="%s" y2="%s" class="%s"/>' % (place(x1), place(y1), place(x2), place(y2), kind)


def box(x: Number, y: Number, width: Number, height: Number, kind: str, told: str = '', more: str = '') -> str:
    """A rectangle with a text that is shown when it is pointed at."""
    head = '<rect x="%s" y="%s" width="%s" height="%s" class="%s"%s' % (
        place(x), place(y), place(max(width, 0)), place(max(height, 0)), kind, ' ' + more if more else '')
    return head + ('><title>%s</title></rect>' % escape(told) if told else '/>')


def shortened(text: str, most: int) -> str:
    """A label within n letters."""
    return text if len(text) <= most else text[:most - 1] + '…'


class Frame:
    """One SVG picture with a title and a description for readers who do not see it."""
    count = 0

    def __init__(self, title: str, told: str, width: Number, height: Number) -> None:
        Frame.count += 1
        self.name = 'chart%d' % Frame.count
        self.title, self.told = title, told
        self.width, self.height = width, height
        self.parts: List[str] = []

    def put(self, *parts: str) -> None:
        self.parts += parts

    def svg(self) -> str:
        head = ('<svg role="img" aria-labelledby="{0}t {0}d" viewBox="0 0 {1} {2}" width="{1}" height="{2}">'
                '<title id="{0}t">{3}</title><desc id="{0}d">{4}</desc>')
        return head.format(self.name, place(self.width), place(self.height), escape(self.title), escape(self.told)) \
            + ''.join(self.parts) + '</svg>'


def figure(frame: Frame) -> str:
    """A picture with its title above it."""
    return '<figure><figcaption>%s</figcaption>%s</figure>' % (escape(frame.title), frame.svg())
