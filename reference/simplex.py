"""Dictionaries and their pivots, by the textbook (Chvatal, "Linear Programming", chapters 2 and 3).

docs/internals/SOLVER.md, "The dictionary", "Steps". A dictionary says of each basic variable, and
of the objective, what it is: a constant less the sum of entry times variable. So the objective's
row has its coefficients negated, and one rule of exchange serves all rows.
"""
from dataclasses import dataclass

from reference.exact import Number
from reference.program import Program
from reference.standard import CONSTANT, Standard, negated, taken


@dataclass
class Dictionary:
    """The basic variable of each row, and the rows' numbers that are not 0; the objective's row is
    the last.
    """
    basis: list[int]
    rows: list[dict[int, Number]]
    opening_due: bool

    def number(self, row: int, key: int) -> Number:
        """A number of a row: its constant, or its entry at a variable that is not basic."""
        return self.rows[row].get(key, 0)

    @property
    def phase(self) -> int:
        """1 while variable 0 is in the rows, and 2 from the pivot on by which it leaves, or where
        it never was.
        """
        return 1 if self.opening_due or 0 in self.basis else 2

    def coefficients(self) -> dict[int, Number]:
        """The coefficients by which variables improve: of the objective, negated entries; in phase
        1 the entries of variable 0's row.
        """
        priced = self.rows[self.basis.index(0)] if 0 in self.basis else negated(self.rows[-1])
        return {variable: number for variable, number in priced.items() if variable != CONSTANT}

    def improving(self) -> dict[int, Number]:
        """The variables that improve, with their coefficients."""
        return {variable: number for variable, number in self.coefficients().items() if number > 0}

    def limiting(self, entering: int) -> list[int]:
        """The rows that limit a variable."""
        return [row for row in range(len(self.basis)) if self.number(row, entering) > 0]

    def least(self, rows: list[int], values: list[Number]) -> int:
        """Of rows with values the one whose value is least; of equal ones that with the least basic
        variable, and so variable 0 first.
        """
        return min(zip(values, (self.basis[row] for row in rows), rows))[2]

    def leaving(self, entering: int, pivot: int) -> int:
        """The row that leaves: of those that limit the variable, the one with the least ratio."""
        limiting = self.limiting(entering)
        return self.least(limiting, [taken('/', self.number(row, CONSTANT), self.number(row, entering), 'Ratio', pivot, row + 1)
                                     for row in limiting])

    def exchange(self, entering: int, leaving: int, pivot: int) -> None:
        """Makes a variable basic in this row: first this row is divided, then each other row, the
        objective last, loses a multiple.

        Within a row the constant comes first, then variables by number. A row without the variable
        that enters stays as it is.
        """
        old = self.rows[leaving]
        divisor = old.pop(entering)
        old[self.basis[leaving]] = 1
        own = {key: taken('/', old[key], divisor, 'Exchange', pivot, leaving + 1, key + 1, 0) for key in sorted(old)}
        for place, row in enumerate(self.rows):
            factor = row.pop(entering, 0)
            if place == leaving or not factor:
                continue
            for key, number in own.items():
                part = taken('*', factor, number, 'Exchange', pivot, place + 1, key + 1, 0)
                row[key] = taken('-', row.get(key, 0), part, 'Exchange', pivot, place + 1, key + 1, 1)
                if not row[key]:
                    del row[key]
        self.rows[leaving] = own
        gone, self.basis[leaving] = self.basis[leaving], entering
        self.opening_due = False
        if gone == 0:
            for row in self.rows:
                row.pop(0, None)


def first_dictionary(program: Program, form: Standard) -> Dictionary:
    """The slacks are basic. Where a right side is below 0, variable 0 enters every row, and the
    opening pivot is next.
    """
    rows = [dict(row) for row in form.rows]
    opening_due = any(row.get(CONSTANT, 0) < 0 for row in rows)
    if opening_due:
        for row in rows:
            row[0] = -1
    direction = 1 if program.maximize else -1
    shift = form.shifts[program.objective]
    objective = {variable: -direction * sign for variable, sign in shift.parts()}
    if shift.base:
        objective[CONSTANT] = direction * shift.base
    basis = [form.variables + row for row in range(1, len(rows) + 1)]
    return Dictionary(basis, rows + [objective], opening_due)


def opening_row(dictionary: Dictionary) -> int:
    """The row that leaves in the opening pivot: the one with the least constant, and of these that
    with the least variable.
    """
    rows = list(range(len(dictionary.basis)))
    return dictionary.least(rows, [dictionary.number(row, CONSTANT) for row in rows])
