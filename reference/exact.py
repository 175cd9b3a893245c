"""Exact numbers whose parts have a limit (docs/NUMBERS.md, "What a number is").

A number is a fraction in lowest terms, and `str` of it is its exact text, `n` or `n/d`. A whole
one is an `int`, with which Python computes fast. Each step is taken exactly. Where its result does
not fit, `step` raises `DoesNotFit`, and nothing is ever rounded.
"""
import re
from fractions import Fraction
from math import gcd
from typing import Optional, Union

Number = Union[int, Fraction]

LIMIT = 2 ** 127 - 1
EXACT_TEXT = re.compile(r'(-?[0-9]{1,39})(?:/([0-9]{1,39}))?')


class DoesNotFit(Exception):
    """A step whose result, or a number on the way to it, is over the limit."""


def is_within(*numbers: int) -> bool:
    """Whether no magnitude is over the limit."""
    return max(map(abs, numbers)) <= LIMIT


def ratio(numerator: int, denominator: int) -> Number:
    """The number of these parts."""
    return plain(Fraction(numerator, denominator))


def number_of(text: str) -> Optional[Number]:
    """The number of a text `n` or `n/d`, in lowest terms or not; None where it has none, or a part
    is over the limit.
    """
    match = EXACT_TEXT.fullmatch(text)
    if match is None:
        return None
    numerator, denominator = int(match[1]), int(match[2] or 1)
    return ratio(numerator, denominator) if denominator and is_within(numerator, denominator) else None


def plain(value: Number) -> Number:
    """The number, as an `int` where it is whole."""
    return value.numerator if value.denominator == 1 else value


def fitting(value: Number) -> Number:
    """The value, where both parts are within the limit: the rule of a product, a quotient and a
    power.
    """
    if not is_within(value.numerator, value.denominator):
        raise DoesNotFit
    return plain(value)


def total(left: Number, right: Number) -> Number:
    """The sum of a/b and c/d, where a(d/g), c(b/g), their sum t and (b/g)(d/h) are within the
    limit; g is gcd(b, d), h is gcd(t, g).
    """
    a, b, c, d = left.numerator, left.denominator, right.numerator, right.denominator
    g = gcd(b, d)
    first, second = a * (d // g), c * (b // g)
    both = first + second
    h = gcd(both, g)
    below = (b // g) * (d // h)
    if not is_within(first, second, both, below):
        raise DoesNotFit
    return both // h if below == 1 else Fraction(both // h, below)


def step(symbol: str, left: Number, right: Number) -> Number:
    """One step, `+`, `-`, `*` or `/`, of two numbers. The right operand of `/` is not 0."""
    if symbol == '+':
        return total(left, right)
    if symbol == '-':
        return total(left, -right)
    return fitting(left * right if symbol == '*' else Fraction(left, right))
