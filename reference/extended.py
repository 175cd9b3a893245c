"""Values that may be infinite or NA, and the steps on them (docs/NUMBERS.md, "Infinity and NA").

A value is a number or one of `INF`, `MINUS_INF` and `NA`. A step without a result raises
`StepFault`.
"""
from enum import Enum
from fractions import Fraction
from typing import Callable, Union

from reference import errors
from reference.exact import DoesNotFit, Number, step
from reference.texts import rounded


class Special(Enum):
    """What is no number."""
    INF = '+INF'
    MINUS_INF = '-INF'
    NA = 'NA'


INF, MINUS_INF, NA = Special.INF, Special.MINUS_INF, Special.NA
Value = Union[Number, Special]

LARGEST_EXPONENT = 1024


class StepFault(Exception):
    """A step without a result, which is this error."""

    def __init__(self, code: errors.Execution) -> None:
        super().__init__(code)
        self.code = code


def number_step(symbol: str, left: Number, right: Number) -> Number:
    try:
        return step(symbol, left, right)
    except DoesNotFit:
        raise StepFault(errors.Execution.Limit) from None


def is_whole(x: Value) -> bool:
    return not isinstance(x, Special) and x.denominator == 1


def sign_of(x: Value) -> int:
    """1, 0 or -1; not of NA."""
    if isinstance(x, Special):
        return 1 if x is INF else -1
    return (x > 0) - (x < 0)


def infinity(sign: int) -> Special:
    return INF if sign > 0 else MINUS_INF


def negated(x: Value) -> Value:
    if isinstance(x, Special):
        return {INF: MINUS_INF, MINUS_INF: INF, NA: NA}[x]
    return -x


def added(x: Value, y: Value) -> Value:
    if NA in (x, y):
        return NA
    if isinstance(x, Special):
        if isinstance(y, Special) and y is not x:
            raise StepFault(errors.Execution.Undefined)
        return x
    return y if isinstance(y, Special) else number_step('+', x, y)


def subtracted(x: Value, y: Value) -> Value:
    return added(x, negated(y))


def multiplied(x: Value, y: Value) -> Value:
    if NA in (x, y):
        return NA
    if isinstance(x, Special) or isinstance(y, Special):
        sign = sign_of(x) * sign_of(y)
        if sign == 0:
            raise StepFault(errors.Execution.Undefined)
        return infinity(sign)
    return number_step('*', x, y)


def divided(x: Value, y: Value) -> Value:
    """Anything over the number 0 is the fault `Divide`, NA over 0 too."""
    if y == 0:
        raise StepFault(errors.Execution.Divide)
    if NA in (x, y):
        return NA
    if isinstance(y, Special):
        if isinstance(x, Special):
            raise StepFault(errors.Execution.Undefined)
        return 0
    return infinity(sign_of(x) * sign_of(y)) if isinstance(x, Special) else number_step('/', x, y)


def power(x: Value, n: Value) -> Value:
    """The product for every whole exponent of at most 1,024 in magnitude."""
    if not is_whole(n) or abs(n) > LARGEST_EXPONENT:
        raise StepFault(errors.Execution.Exponent)
    if n == 0:
        return 1
    if x is NA:
        return NA
    if isinstance(x, Special):
        return 0 if n < 0 else infinity(1 if x is INF or n % 2 == 0 else -1)
    if x == 0:
        if n < 0:
            raise StepFault(errors.Execution.Divide)
        return 0
    return fitting_power(x, int(n))


def fitting_power(x: Number, n: int) -> Number:
    """The power of a number that is not 0; it fits where both of its parts do."""
    if max(abs(x.numerator), x.denominator) > 1 and abs(n) >= 127:
        raise StepFault(errors.Execution.Limit)
    return number_step('*', Fraction(x) ** n, 1)


def truncated(x: Number) -> Number:
    return abs(x.numerator) // x.denominator * sign_of(x)


def modulo(x: Value, y: Value) -> Value:
    """x - y*trunc(x/y), by these four steps."""
    return subtracted(x, multiplied(y, whole(truncated)(divided(x, y))))


def whole(rounding: Callable[[Number], Number]) -> Callable[[Value], Value]:
    """A rounding, which keeps infinities and NA."""
    return lambda x: x if isinstance(x, Special) else rounding(x)


def nearest(x: Number) -> Number:
    """The nearest whole number, from the middle of two away from zero."""
    return (2 * abs(x.numerator) + x.denominator) // (2 * x.denominator) * sign_of(x)


def magnitude(x: Value) -> Value:
    return NA if x is NA else INF if isinstance(x, Special) else abs(x)


def signum(x: Value) -> Value:
    return NA if x is NA else sign_of(x)


def is_less(x: Value, y: Value) -> bool:
    """The order; nothing is less than NA, nor NA than anything."""
    if NA in (x, y) or x == y:
        return False
    if isinstance(x, Special) or isinstance(y, Special):
        return x is MINUS_INF or y is INF
    return x < y


def lesser(x: Value, y: Value) -> Value:
    return NA if NA in (x, y) else y if is_less(y, x) else x


def greater(x: Value, y: Value) -> Value:
    return NA if NA in (x, y) else y if is_less(x, y) else x


RELATIONS: dict[str, Callable[[Value, Value], bool]] = {
    '<': is_less,
    '<=': lambda x, y: is_less(x, y) or (x == y and x is not NA),
    '=': lambda x, y: x == y,
    '<>': lambda x, y: x != y,
    '>=': lambda x, y: is_less(y, x) or (x == y and x is not NA),
    '>': lambda x, y: is_less(y, x),
}

FUNCTIONS: dict[str, Callable[..., Value]] = {
    'abs': magnitude,
    'sign': signum,
    'sqr': lambda x: multiplied(x, x),
    'floor': whole(lambda x: x.numerator // x.denominator),
    'ceil': whole(lambda x: -(-x.numerator // x.denominator)),
    'trunc': whole(truncated),
    'round': whole(nearest),
    'mod': modulo,
    'power': power,
    'min': lesser,
    'max': greater,
}


def shown(x: Value, decimals: int = 3) -> str:
    """The text of a value in displays: with decimals, or `+INF`, `-INF` or `NA`."""
    return x.value if isinstance(x, Special) else rounded(x, decimals)


def exactly(x: Value) -> str:
    """The text of a value in saves: `n`, `n/d`, `+INF`, `-INF` or `NA`."""
    return x.value if isinstance(x, Special) else str(x)
