"""Linear programs and their answers (docs/internals/SOLVER.md, "A linear program", "What proves an
answer", "The search").

Columns and rows are named as the listing names them. Each list of numbers in an answer goes by
columns or by rows of the program.
"""
from dataclasses import dataclass, field
from typing import Optional

from reference.exact import Number


@dataclass(frozen=True)
class Column:
    """A variable's element, such as `x(a,b)`, with its bounds; None is no bound."""
    name: str
    lower: Optional[Number]
    upper: Optional[Number]


@dataclass(frozen=True)
class Row:
    """An equation's element: the sum of number times column is equal to (E), at most (L) or at
    least (G) the right side, or free (N).

    The coefficients are not 0, by the places of their columns, which ascend.
    """
    name: str
    sense: str
    coefficients: dict[int, Number]
    right: Number


@dataclass(frozen=True)
class Program:
    """Columns and rows in the order of the listing, and the place of the column that is to be least
    or greatest.
    """
    columns: list[Column]
    rows: list[Row]
    objective: int
    maximize: bool

    def cost(self, column: int) -> Number:
        """The cost of a column: 1 for the objective, and 0 for every other one."""
        return int(column == self.objective)


@dataclass(frozen=True)
class Step:
    """A step that did not fit (docs/LISTING.md, "PROOF Refused"): its kind, and its numbers in the
    order of that table.

    Standard(row, column, part), Ratio(pivot, row), Exchange(pivot, row, column, part),
    Recover(what, index, entry, part).
    """
    kind: str
    numbers: tuple[int, ...]


@dataclass
class Answer:
    """What a solver answers.

    status   has
    Optimal      levels, row_levels, duals, reduced, and the final dictionary
    Unbounded    levels, row_levels and ray
    Infeasible   crossed, a column whose bounds cross; or duals, the factors of the rows
    Interrupted  phase; in phase 2 levels and row_levels
    Refused      step
    """
    status: str
    pivots: list[tuple[int, int]] = field(default_factory=list)     # what enters, and what leaves
    levels: list[Number] = field(default_factory=list)            # of columns
    row_levels: list[Number] = field(default_factory=list)
    duals: list[Number] = field(default_factory=list)             # of rows
    reduced: list[Number] = field(default_factory=list)           # of columns
    ray: list[Number] = field(default_factory=list)               # of columns
    crossed: Optional[int] = None       # a column
    phase: int = 0
    step: Optional[Step] = None
    entering: int = 0                   # at Unbounded the variable that nothing limits
    final: Optional[object] = None      # a simplex.Dictionary, which ranges read

    @property
    def has_point(self) -> bool:
        """Whether there are levels: docs/LANGUAGE.md, "solve", says when they are put."""
        return self.status in ('Optimal', 'Unbounded') or self.status == 'Interrupted' and self.phase == 2

    @property
    def statuses(self) -> tuple[int, int]:
        """The model status and the solver status (docs/LANGUAGE.md, "solve")."""
        if self.status == 'Interrupted':
            return (7 if self.phase == 2 else 6), 2
        return {'Optimal': (1, 1), 'Unbounded': (3, 1), 'Infeasible': (4, 1), 'Refused': (13, 4)}[self.status]
