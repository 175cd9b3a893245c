"""The standard form: variables at least 0, rows at most their right sides, an objective to be
greatest.

docs/internals/SOLVER.md, "The standard form"; docs/LISTING.md, "PROOF Refused".
"""
from dataclasses import dataclass, field
from typing import Optional

from reference.exact import DoesNotFit, Number, step
from reference.program import Column, Program, Row, Step

# The key of the constant in a row of numbers. Variable v has the key v; in steps key k is column k
# + 1.
CONSTANT = -1


class Refusal(Exception):
    """The first step that does not fit ends the search."""

    def __init__(self, kind: str, *numbers: int) -> None:
        super().__init__(kind)
        self.step = Step(kind, numbers)


def taken(symbol: str, left: Number, right: Number, kind: str, *numbers: int) -> Number:
    """The step of this name, or its refusal."""
    try:
        return step(symbol, left, right)
    except DoesNotFit:
        raise Refusal(kind, *numbers) from None


@dataclass(frozen=True)
class Shift:
    """A column is its base plus sign times a variable; without bounds it is a variable less a
    second one.
    """
    base: Number
    sign: int
    variable: int
    second: Optional[int] = None

    def parts(self) -> list[tuple[int, int]]:
        """The variables with their signs."""
        own = [(self.variable, self.sign)]
        return own if self.second is None else own + [(self.second, -1)]


@dataclass
class Standard:
    """A program in standard form. Row k, from 1, has the slack `variables + k`."""
    shifts: list[Shift]
    variables: int
    # Numbers by variable, with the right side at CONSTANT.
    rows: list[dict[int, Number]] = field(default_factory=list)
    # The slacks of each row of the program: none for N, two for E.
    slacks: list[list[int]] = field(default_factory=list)
    # The slack of each column with two bounds.
    bound_slack: dict[int, int] = field(default_factory=dict)

    def added(self, row: dict[int, Number]) -> int:
        """Adds a row, and gives its slack."""
        self.rows.append({key: number for key, number in row.items() if number})
        return self.variables + len(self.rows)

    @property
    def all_variables(self) -> int:
        """How many variables there are, with slacks and variable 0."""
        return self.variables + len(self.rows) + 1


def shifts_of(columns: list[Column]) -> tuple[list[Shift], int]:
    """The shift of each column, and how many variables they take; variables count from 1."""
    shifts: list[Shift] = []
    last = 0
    for column in columns:
        last += 1
        if column.lower is not None:
            shifts.append(Shift(column.lower, 1, last))
        elif column.upper is not None:
            shifts.append(Shift(column.upper, -1, last))
        else:
            shifts.append(Shift(0, 1, last, last + 1))
            last += 1
    return shifts, last


def shifted(row: Row, shifts: list[Shift], number: int) -> dict[int, Number]:
    """The row over variables: from the right side goes, column by column, the coefficient times the
    bound. Its row has this number.
    """
    result = {CONSTANT: row.right}
    for column, coefficient in row.coefficients.items():
        shift = shifts[column]
        if shift.second is None:
            moved = taken('*', coefficient, shift.base, 'Standard', number, column + 1, 0)
            result[CONSTANT] = taken('-', result[CONSTANT], moved, 'Standard', number, column + 1, 1)
        for variable, sign in shift.parts():
            result[variable] = sign * coefficient
    return result


def negated(row: dict[int, Number]) -> dict[int, Number]:
    """The row with the other signs, which is no step."""
    return {key: -number for key, number in row.items()}


def standard(program: Program) -> Standard:
    """The standard form of a program no column of which crosses, or the `Refusal` of its first step
    that does not fit.
    """
    form = Standard(*shifts_of(program.columns))
    for row in program.rows:
        if row.sense == 'N':
            form.slacks.append([])
            continue
        upper = shifted(row, form.shifts, len(form.rows) + 1)
        signed = {'L': [upper], 'G': [negated(upper)], 'E': [upper, negated(upper)]}[row.sense]
        form.slacks.append([form.added(it) for it in signed])
    for place, column in enumerate(program.columns):
        if column.lower is not None and column.upper is not None:
            width = taken('-', column.upper, column.lower, 'Standard', len(form.rows) + 1, place + 1, 1)
            form.bound_slack[place] = form.added({form.shifts[place].variable: 1, CONSTANT: width})
    return form
