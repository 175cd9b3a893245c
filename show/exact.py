"""Numbers of a listing: exact fractions, infinities and NA. Nothing here is a float."""
import re
from fractions import Fraction
from typing import Optional

MINUS_INFINITY = '-INF'
PLUS_INFINITY = '+INF'
NOT_AVAILABLE = 'NA'
SPECIAL = (MINUS_INFINITY, PLUS_INFINITY, NOT_AVAILABLE)
DECIMAL = re.compile(r'-?\d+(\.\d+)?\Z')
FRACTION = re.compile(r'-?\d+(/\d+)?\Z')
HALF = Fraction(1, 2)


def is_decimal(text: str) -> bool:
    """Whether a text is a decimal number as a listing prints it."""
    return DECIMAL.match(text) is not None


def is_value(text: str) -> bool:
    """Whether a text is a number, an infinity, NA, or the dot for 0."""
    return DECIMAL.match(text) is not None or text == '.' or text in SPECIAL


def is_fraction(text: str) -> bool:
    """Whether a text is an exact number of a proof."""
    return FRACTION.match(text) is not None and not text.endswith('/0')


def number_of(text: str) -> Optional[Fraction]:
    """The number of a printed text; none for an infinity and for NA. A dot is 0."""
    if text == '.':
        return Fraction(0)
    return None if text in SPECIAL else Fraction(text)


def rounded(value: Fraction, places: int = 3) -> Fraction:
    """The value at n decimals, rounded from the middle of two away from zero."""
    scale = 10 ** places
    magnitude = int(abs(value) * scale + HALF)
    return Fraction(magnitude if value >= 0 else -magnitude, scale)


def decimal_text(value: Fraction, places: int = 3) -> str:
    """The value as the listing prints it: n decimals, and no sign where it is shown as
    zero."""
    scaled = abs(rounded(value, places)) * 10 ** places
    digits = str(scaled.numerator).rjust(places + 1, '0')
    sign = '-' if value < 0 and scaled else ''
    return sign + (digits[:-places] + '.' + digits[-places:] if places else digits)


def dotted_text(value: Fraction) -> str:
    """The value as a block of levels prints it, where 0 is a dot."""
    return decimal_text(value) if value else '.'


def is_terminating(value: Fraction) -> bool:
    """Whether the value has finitely many decimals."""
    rest = value.denominator
    for factor in (2, 5):
        while rest % factor == 0:
            rest //= factor
    return rest == 1


def plain_text(value: Fraction, places: int = 6) -> str:
    """The value in the shortest exact form for a reader: an integer, a short decimal, or a
    fraction."""
    if value.denominator == 1:
        return str(value.numerator)
    if is_terminating(value):
        for count in range(1, places + 1):
            if rounded(value, count) == value:
                return decimal_text(value, count)
    return str(value)


def reader_text(value: Fraction) -> str:
    """The value for a reader: exact where it is short, else with three decimals and the fraction
    beside it."""
    text = plain_text(value)
    return '%s (%s)' % (decimal_text(value), text) if '/' in text else text
