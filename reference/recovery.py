"""From a final dictionary back to the numbers of the program.

`docs/internals/SOLVER.md`, "Recovery", has the rules. The steps are `Recover` steps: 0 levels of
columns, 1 levels of rows, 2 duals, 3 reduced costs, 4 the ray (docs/LISTING.md, "PROOF Refused").
"""
from reference.exact import Number
from reference.program import Answer, Program
from reference.simplex import CONSTANT, Dictionary
from reference.standard import Shift, Standard, taken


def recovered(program: Program, form: Standard, dictionary: Dictionary, answer: Answer) -> None:
    """Puts the numbers of its end into the answer."""
    if answer.has_point:
        answer.levels = levels(form, dictionary)
        answer.row_levels = row_levels(program, answer.levels)
    if answer.status == 'Optimal':
        sign = 1 if program.maximize else -1
        answer.duals = duals(program, form, dictionary, sign)
        answer.reduced = reduced(form, dictionary, sign)
        answer.final = dictionary
    if answer.status == 'Infeasible':
        answer.duals = duals(program, form, dictionary, -1)
    if answer.status == 'Unbounded':
        answer.ray = ray(form, dictionary, answer.entering)


def moved(shift: Shift, base: Number, values: dict[int, Number], what: int, index: int) -> Number:
    """The base plus the column's variables with their signs, which is one step at most."""
    first = shift.sign * values.get(shift.variable, 0)
    if shift.second is None:
        return taken('+', base, first, 'Recover', what, index, 0, 1)
    return taken('-', first, values.get(shift.second, 0), 'Recover', what, index, 0, 1)


def levels(form: Standard, dictionary: Dictionary) -> list[Number]:
    """The level of each column. Variables that are not basic are 0."""
    values = {variable: dictionary.number(row, CONSTANT) for row, variable in enumerate(dictionary.basis)}
    return [moved(shift, shift.base, values, 0, index) for index, shift in enumerate(form.shifts)]


def row_levels(program: Program, at: list[Number]) -> list[Number]:
    """The sum of each row, entry by entry, from 0."""
    result = []
    for index, row in enumerate(program.rows):
        level = 0
        for entry, (column, coefficient) in enumerate(row.coefficients.items()):
            part = taken('*', coefficient, at[column], 'Recover', 1, index, entry, 0)
            level = taken('+', level, part, 'Recover', 1, index, entry, 1)
        result.append(level)
    return result


def duals(program: Program, form: Standard, dictionary: Dictionary, sign: int) -> list[Number]:
    """The dual of each row: of L the multiplier of its standard row, of G that negated, of E the
    first less the second, of N 0.

    A multiplier is the negated coefficient of the slack; all duals have this sign before them.
    """
    coefficients = dictionary.coefficients()
    result = []
    for index, (row, slacks) in enumerate(zip(program.rows, form.slacks)):
        multipliers = [-coefficients.get(slack, 0) for slack in slacks]
        if row.sense == 'E':
            dual = taken('-', multipliers[0], multipliers[1], 'Recover', 2, index, 0, 1)
        else:
            dual = {'L': 1, 'G': -1, 'N': 0}[row.sense] * sum(multipliers)
        result.append(sign * dual)
    return result


def reduced(form: Standard, dictionary: Dictionary, sign: int) -> list[Number]:
    """The reduced cost of each column: the coefficient of its variable, and the multiplier of its
    own row where it has two bounds.
    """
    coefficients = dictionary.coefficients()
    result = []
    for index, shift in enumerate(form.shifts):
        cost = 0 if shift.second is not None else shift.sign * coefficients.get(shift.variable, 0)
        if index in form.bound_slack:
            multiplier = -coefficients.get(form.bound_slack[index], 0)
            cost = taken('+', cost, multiplier, 'Recover', 3, index, 0, 1)
        result.append(sign * cost)
    return result


def ray(form: Standard, dictionary: Dictionary, entering: int) -> list[Number]:
    """How each column moves while the variable that nothing limits rises by 1 and each basic one
    falls by its entry.
    """
    moves = {variable: -dictionary.number(row, entering) for row, variable in enumerate(dictionary.basis)}
    moves[entering] = 1
    return [moved(shift, 0, moves, 4, index) for index, shift in enumerate(form.shifts)]
