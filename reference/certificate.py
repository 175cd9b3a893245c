"""The bound that duals prove (docs/internals/SOLVER.md, "What proves an answer"; docs/LISTING.md,
"Proofs, and how to check them by hand").

`dual_bound` is all that an outsider needs besides comparing levels: one sum.
"""
from typing import Optional, Union

from reference.exact import DoesNotFit, Number, step
from reference.program import Column, Program, Row

Bounds = tuple[Optional[Number], Optional[Number]]


class CheckStep(Exception):
    """The step of this number, from 0, is the first of the sum that does not fit."""

    def __init__(self, number: int) -> None:
        super().__init__(number)
        self.number = number


class NoBound(Exception):
    """A factor selects a bound that its column or row does not have."""


class Sum:
    """Steps in their order, counted from 0."""

    def __init__(self) -> None:
        self.number = 0

    def taken(self, symbol: str, left: Number, right: Number) -> Number:
        """The next step."""
        try:
            result = step(symbol, left, right)
        except DoesNotFit:
            raise CheckStep(self.number) from None
        self.number += 1
        return result


class ExactSum(Sum):
    """Steps without a limit."""

    def taken(self, symbol: str, left: Number, right: Number) -> Number:
        return {'+': left + right, '-': left - right, '*': left * right}[symbol]


def bounds_of(it: Union[Column, Row]) -> Bounds:
    """What a column or a row is at least and at most: a row E both, L at most, G at least, N
    neither.
    """
    if isinstance(it, Column):
        return it.lower, it.upper
    return it.right if it.sense in 'EG' else None, it.right if it.sense in 'EL' else None


def reduced_costs(program: Program, duals: list[Number], with_objective: bool, steps: Sum) -> list[Number]:
    """The cost of each column less each dual times the row's number for the column, over the rows
    but N in order; all costs are 0 for rows that contradict.
    """
    result = []
    for column in range(len(program.columns)):
        cost = program.cost(column) * with_objective
        for row, dual in zip(program.rows, duals):
            if row.sense != 'N' and column in row.coefficients:
                cost = steps.taken('-', cost, steps.taken('*', dual, row.coefficients[column]))
        result.append(cost)
    return result


def dual_bound(program: Program, duals: list[Number], with_objective: bool, steps: Sum) -> Number:
    """The bound by these duals: with the objective's costs, or with all costs 0, as when
    minimizing, for rows that contradict.

    A factor above 0 selects the lower bound for a low one, and the upper bound for a high one.
    """
    is_low = not (with_objective and program.maximize)
    reduced = reduced_costs(program, duals, with_objective, steps)
    bound = 0
    for it, factor in [*zip(program.rows, duals), *zip(program.columns, reduced)]:
        if factor:
            selected = bounds_of(it)[0 if (factor > 0) == is_low else 1]
            if selected is None:
                raise NoBound('the factor %s of %s selects a bound that %s does not have' % (factor, it.name, it.name))
            bound = steps.taken('+', bound, steps.taken('*', factor, selected))
    return bound
