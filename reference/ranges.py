"""How far a right side or a cost of a solved program may move (docs/internals/SOLVER.md,
"Ranges"; docs/LISTING.md, "Messages").

All is read off the final dictionary. A right side may move by t while no constant falls below 0, a
cost while no variable improves.
"""
from typing import Iterable, Optional

from reference.exact import DoesNotFit, Number, step
from reference.program import Answer, Program
from reference.simplex import CONSTANT, Dictionary
from reference.standard import Shift, Standard, standard

Ends = tuple[Optional[Number], Optional[Number]]


def interval(number: Number, kept: Iterable[tuple[Number, Number]]) -> Ends:
    """The numbers number + t for which each kept amount + t * gain is at least 0."""
    low: Optional[Number] = None
    high: Optional[Number] = None
    for amount, gain in kept:
        if gain:
            end = step('/', -amount, gain)
            if gain > 0:
                low = end if low is None else max(low, end)
            else:
                high = end if high is None else min(high, end)
    return None if low is None else step('+', number, low), None if high is None else step('+', number, high)


def entry(dictionary: Dictionary, row: int, variable: int) -> Number:
    """The number of a row at a variable: its entry, and at basic variables 1 in the own row and 0
    in every other.
    """
    return int(dictionary.basis[row] == variable) if variable in dictionary.basis else dictionary.number(row, variable)


def right_kept(dictionary: Dictionary, slacks: list[int], sense: str) -> Iterable[tuple[Number, Number]]:
    """Of each row of the dictionary its constant, and what it gains where the right side rises by
    1.
    """
    for row in range(len(dictionary.basis)):
        first = entry(dictionary, row, slacks[0])
        if sense == 'E':
            first = step('-', first, entry(dictionary, row, slacks[1]))
        yield dictionary.number(row, CONSTANT), -first if sense == 'G' else first


def change(dictionary: Dictionary, variable: int, moving: int) -> Number:
    """How a variable changes where one that is not basic rises by 1."""
    if variable in dictionary.basis:
        return -dictionary.number(dictionary.basis.index(variable), moving)
    return int(variable == moving)


def cost_kept(dictionary: Dictionary, shift: Shift, variables: int, sign: int) -> Iterable[tuple[Number, Number]]:
    """Of each variable that is not basic its coefficient, and what that gains where the cost rises
    by 1; both negated, to be at least 0.
    """
    coefficients = dictionary.coefficients()
    for moving in range(1, variables):
        if moving in dictionary.basis:
            continue
        gain = shift.sign * change(dictionary, shift.variable, moving)
        if shift.second is not None:
            gain = step('-', gain, change(dictionary, shift.second, moving))
        yield -coefficients.get(moving, 0), -sign * gain


def line(word: str, name: str, number: Number, kept: Iterable[tuple[Number, Number]]) -> str:
    """The line of one number, or that a step on the way to an end does not fit."""
    try:
        low, high = interval(number, kept)
    except DoesNotFit:
        return '  %s %s not shown' % (word, name)
    return '  %s %s from %s to %s' % (word, name, '-INF' if low is None else low, '+INF' if high is None else high)


def range_lines(program: Program, answer: Answer) -> list[str]:
    """The lines below `ranges of solve K`, for an Optimal answer."""
    form: Standard = standard(program)
    dictionary: Dictionary = answer.final
    sign = 1 if program.maximize else -1
    lines = [line('right', row.name, row.right, right_kept(dictionary, slacks, row.sense))
             for row, slacks in zip(program.rows, form.slacks) if row.sense != 'N']
    for place, (column, shift) in enumerate(zip(program.columns, form.shifts)):
        kept = cost_kept(dictionary, shift, form.all_variables, sign)
        lines.append(line('cost', column.name, program.cost(place), kept))
    return lines
