"""Numbers as they are read and shown (docs/NUMBERS.md, "How a number is read" and "How a number is
shown").
"""
import re
from typing import Optional

from reference.exact import LIMIT, Number, ratio

NUMBER = re.compile(r'(?:(?P<whole>[0-9]+)(?:\.(?P<decimals>[0-9]*))?|\.(?P<alone>[0-9]+))(?:[eE](?P<exponent>[+-]?[0-9]+))?')


MOST_DIGITS = 39          # 2^127 - 1 has as many


class TooWide(Exception):
    """A number's text that is not within the limit."""


def decimal(text: str) -> Optional[Number]:
    """The number that a text means, or None where it is no number's text.

    It is m times ten to the power e, where m does not end in 0. For e from 0 on the product has to
    be within the limit, and for e below 0 both m and ten to the power -e.
    """
    match = NUMBER.fullmatch(text)
    if match is None:
        return None
    decimals = match['decimals'] or match['alone'] or ''
    written = (match['whole'] or '') + decimals
    digits = written.strip('0')
    if not digits:
        return 0
    exponent = short(match['exponent'] or '0') - len(decimals) + len(written) - len(written.rstrip('0'))
    if len(digits) > MOST_DIGITS or abs(exponent) > MOST_DIGITS:
        raise TooWide
    numerator, denominator = int(digits) * 10 ** max(exponent, 0), 10 ** max(-exponent, 0)
    if numerator > LIMIT or denominator > LIMIT:
        raise TooWide
    return ratio(numerator, denominator)


def short(exponent: str) -> int:
    """The exponent. One of more digits than a line can balance is out of range, whatever it is
    exactly.
    """
    digits = exponent.lstrip('+-').lstrip('0')[:9] or '0'
    return -int(digits) if exponent.startswith('-') else int(digits)


def rounded(value: Number, decimals: int = 3) -> str:
    """The number with that many decimals, rounded from the middle of two away from zero; `-` only
    where a digit is not 0.
    """
    scale = 10 ** decimals
    numerator, denominator = abs(value.numerator) * scale, value.denominator
    units = (2 * numerator + denominator) // (2 * denominator)
    sign = '-' if value < 0 and units else ''
    if decimals == 0:
        return sign + str(units)
    return '%s%d.%0*d' % (sign, units // scale, decimals, units % scale)
