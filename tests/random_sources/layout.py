"""How tokens become text: blanks, line ends and comments between them, labels in marks or without,
numbers in their forms.
"""
import re

from tests.random_sources.draw import Draw

PAIRS = {'**', '..', '<=', '>=', '<>', '++', '--', '=e', '=l', '=g', '=n', '=E', '=L', '=G', '=N'}
SENSES = {'=e=', '=l=', '=g=', '=n='}
BARE = re.compile(r'[A-Za-z0-9][A-Za-z0-9_+-]*\Z')
KEYWORDS = set('''abort alias binary display equation equations free integer loop model models negative option options parameter
    parameters positive scalar scalars set sets solve sos1 sos2 table variable variables'''.split())


def is_apart(left: str, right: str) -> bool:
    """Whether two tokens have to have a blank between them."""
    if left[-1:] + right[:1] in PAIRS or left == '=' and right[:1].isalpha() or left[-1:] == '=' and right[:1] == '=':
        return True
    is_word = left[-1:].isalnum() or left[-1:] == '_'
    if is_word and (right[:1].isalnum() or right[:1] == '_'):
        return True
    return left[:1] in '.0123456789' and (right[:1] == '.' or left[-1:] == '.' and right[:1].isalnum()) or right[:1] == '*' and left == '*'


def between(draw: Draw, left: str, right: str) -> str:
    """What is between two tokens: mostly nothing or a blank, now and then a line end, a comment
    or a tab.
    """
    kind = draw.random.random()
    if kind > 0.995:
        return '\n* a comment; "with ? marks\n ' if draw.chance(0.7) else '\n$ontext\nany ? thing\n$offtext\n  '
    if kind > 0.985:
        return '\n' + ' ' * draw.between(1, 6)
    if kind > 0.98:
        return '\t'
    if is_apart(left, right) or kind > 0.6:
        return ' '
    return ''


def laid(draw: Draw, tokens: list[str]) -> str:
    """The tokens as text."""
    result = tokens[0]
    for left, right in zip(tokens, tokens[1:]):
        result += between(draw, left, right) + right
    return result


def quoted(draw: Draw, text: str) -> str:
    """The text between marks."""
    mark = '"' if "'" in text else "'" if '"' in text else draw.pick(['"', '"', "'"])
    return mark + text + mark


def label(draw: Draw, text: str, is_table: bool = False) -> str:
    """A label of a list or a table, in marks where it has to be and now and then elsewhere."""
    if not BARE.match(text) or draw.chance(0.06) or is_table and text.lower() in KEYWORDS:
        return quoted(draw, text)
    return draw.cased(text)


def digits(draw: Draw) -> str:
    """The text of a number that is not 0, mostly short."""
    return draw.call(
        (50, lambda: str(draw.between(1, 9))),
        (16, lambda: str(draw.between(10, 400))),
        (10, lambda: '%d.%d' % (draw.between(0, 30), draw.between(1, 99))),
        (5, lambda: '.%d' % draw.between(1, 999)),
        (3, lambda: '%d.' % draw.between(1, 60)),
        (3, lambda: '%de%d' % (draw.between(1, 9), draw.between(0, 4))),
        (2, lambda: '%d.%dE-%d' % (draw.between(1, 9), draw.between(0, 9), draw.between(1, 4))),
        (1.5, lambda: draw.pick(['0.000%d' % draw.between(1, 9), '0.0005', '0.5', '%d.5' % draw.between(1, 9), '%d.0005' % draw.between(0, 3)])),
        (1, lambda: '00%d' % draw.between(1, 9)),
        (0.5, lambda: '%d.5e+2' % draw.between(1, 9)))


def number(draw: Draw) -> str:
    """The text of a number, also 0 and now and then one near the limit."""
    if draw.chance(0.06):
        return draw.pick(['0', '0', '0.0', '0e5'])
    if draw.chance(0.004):
        return draw.pick(['170141183460469231731687303715884105727', '1e38', '1e-38', '85070591730234615865843651857942052864',
                          '1.5e38', '0.5e-37', '99999999999999999999'])
    return digits(draw)
