"""Which variable enters (docs/internals/SOLVER.md, "Which variable enters";
docs/internals/DESIGN.md, "Sizes and bits").

A pick is given a dictionary and the variables that improve, with their coefficients.
"""
from functools import partial
from math import lcm
from typing import Callable, Iterable, NamedTuple

from reference.exact import Number
from reference.simplex import CONSTANT, Dictionary
from reference.standard import Refusal

Improving = dict[int, Number]

# The shuffles, and the factor of each: an odd multiple of 2^32 over the golden ratio.
FACTORS = {f'shuffle {n}': (2 * n + 1) * 2_654_435_761 % 2 ** 32 for n in range(16)}
# The rules that a solver tries in turn.
SOLVERS = {'bland': ('bland',), 'dantzig': ('largest',), 'steepest': ('steepest',),
           'any': ('steepest', 'shortest', 'gain', 'row', 'both', 'largest', 'bland', *FACTORS)}
MOST_DENOMINATOR = 2 ** 128 - 1


class Size(NamedTuple):
    """A number of at least 0: its 32 leading bits, times two to the power of the exponent."""
    exponent: int
    word: int


NOTHING = Size(-1_000_000, 0)


def leading(number: int, exponent: int = 0) -> Size:
    """The size of a number times a power of two; further bits are cut off."""
    if not number:
        return NOTHING
    beyond = number.bit_length() - 32
    return Size(exponent + beyond, number >> beyond if beyond >= 0 else number << -beyond)


def product(x: Size, y: Size) -> Size:
    return leading(x.word * y.word, x.exponent + y.exponent)


def quotient(x: Size, y: Size) -> Size:
    return leading((x.word << 32) // y.word, x.exponent - y.exponent - 32) if x.word else NOTHING


def total(x: Size, y: Size) -> Size:
    """The sum; the lesser loses the bits that are below those of the greater one."""
    high, low = (y, x) if x.exponent < y.exponent else (x, y)
    apart = high.exponent - low.exponent
    return high if apart >= 32 else leading(high.word + (low.word >> apart), high.exponent)


def size(x: Number) -> Size:
    """The size of a number above 0, whose denominator has at most 127 bits."""
    return leading((x.numerator << 160) // x.denominator, -160)


def worth(dictionary: Dictionary, variable: int, coefficient: Number) -> Size:
    """The square of the coefficient over 1 and the squares of the numbers in the rows that limit
    the variable.
    """
    length = leading(1)
    for row in dictionary.limiting(variable):
        number = size(dictionary.number(row, variable))
        length = total(length, product(number, number))
    gain = size(coefficient)
    return quotient(product(gain, gain), length)


def steepest(dictionary: Dictionary, improving: Improving) -> int:
    """Of the variables with the greatest coefficients the one whose weight is greatest."""
    most = min(max(4096 // (len(dictionary.basis) + 1), 8), 128)
    weighed = sorted(sorted(improving), key=lambda variable: size(improving[variable]), reverse=True)[:most]
    return greatest({variable: worth(dictionary, variable, improving[variable]) for variable in weighed})


def bits(number: int) -> int:
    return abs(number).bit_length()


def denominator(numbers: Iterable[Number]) -> int:
    """The least denominator that numbers have in common, or the greatest that is used."""
    return min(lcm(*(number.denominator for number in numbers)), MOST_DENOMINATOR)


def bits_over(number: Number, common: int) -> int:
    """The bits of a number over a common denominator."""
    return bits(number.numerator) + bits(common // number.denominator)


class Pivot:
    """What a variable's pivot would be: the row that leaves, and the bits of its numbers."""

    def __init__(self, dictionary: Dictionary, variable: int, coefficient: Number) -> None:
        row = dictionary.leaving(variable, 0)
        self.variable = variable
        self.number, constant = dictionary.number(row, variable), dictionary.number(row, CONSTANT)
        self.of_gain = (bits(coefficient.numerator) + bits(constant.numerator) + bits(self.number.denominator)
                        - bits(coefficient.denominator) - bits(constant.denominator) - bits(self.number.numerator))
        self.in_row = bits_over(self.number, denominator(dictionary.rows[row].values()))
        self.in_column = bits_over(self.number, denominator(it.get(variable, 0) for it in dictionary.rows))


def handicap(variable: int, factor: int) -> int:
    """What a shuffle adds for a variable: the four highest of the 32 bits of the product."""
    return (variable * factor) % 2 ** 32 // 2 ** 28


def shuffled(factor: int, pivot: Pivot) -> int:
    """The cost by a shuffle: as gain for bits, with the gain twice and the handicap added."""
    return bits(pivot.number.numerator) - 2 * pivot.of_gain + handicap(pivot.variable, factor)


COSTS: dict[str, Callable[[Pivot], int]] = {
    'shortest': lambda it: bits(it.number.numerator) + bits(it.number.denominator),
    'gain': lambda it: bits(it.number.numerator) - it.of_gain,
    'row': lambda it: 2 * it.in_row - it.of_gain,
    'both': lambda it: it.in_row + it.in_column - 3 * it.of_gain,
    **{name: partial(shuffled, factor) for name, factor in FACTORS.items()},
}


def cheapest(cost: Callable[[Pivot], int], dictionary: Dictionary, improving: Improving) -> int:
    """The variable whose pivot costs least: before all others one that no row limits, after them
    one of whose ratios a step does not fit.
    """
    def order(variable: int) -> tuple[int, int, int]:
        if not dictionary.limiting(variable):
            return 0, 0, variable
        try:
            return 1, cost(Pivot(dictionary, variable, improving[variable])), variable
        except Refusal:
            return 2, 0, variable
    return min(improving, key=order)


def greatest(values: dict[int, object]) -> int:
    """The variable with the greatest value, and of equal ones the least."""
    return max(sorted(values), key=lambda variable: values[variable])


PICKS: dict[str, Callable[[Dictionary, Improving], int]] = {
    'bland': lambda dictionary, improving: min(improving),
    'largest': lambda dictionary, improving: greatest(improving),
    'steepest': steepest,
    **{name: partial(cheapest, cost) for name, cost in COSTS.items()},
}


class Rule:
    """A pick, which turns to Bland's rule for the rest of a phase once the pivots in a row that
    gain nothing are as many as all variables are.
    """

    def __init__(self, name: str, variables: int) -> None:
        self.name, self.variables = name, variables
        self.idle = 0           # pivots in a row without a gain, in this phase
        self.turned = False

    def entering(self, dictionary: Dictionary) -> int:
        """The variable that enters: 0 in the opening pivot; -1 where no variable improves."""
        if dictionary.opening_due:
            return 0
        improving = dictionary.improving()
        return PICKS['bland' if self.turned else self.name](dictionary, improving) if improving else -1

    def after(self, constant: Number, new_phase: bool) -> None:
        """Counts a pivot by the constant of the variable that left."""
        self.idle = 0 if constant or new_phase else self.idle + 1
        self.turned = not new_phase and (self.turned or self.idle >= self.variables)
