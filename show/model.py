"""What a listing holds: its echo, errors, displays and solves with their certificates."""
from dataclasses import dataclass, field
from fractions import Fraction
from typing import Dict, List, NamedTuple, Optional, Tuple

OPTIMAL, UNBOUNDED, INFEASIBLE = 1, 3, 4
INTERMEDIATE_INFEASIBLE, INTERMEDIATE_NONOPTIMAL, NO_SOLUTION = 6, 7, 13


class Problem(Exception):
    """Something that the user has to be told, with the exit status that it leads to."""

    def __init__(self, text: str, status: int) -> None:
        super().__init__(text)
        self.status = status


class Figures(NamedTuple):
    """The four printed numbers of a row or a column, and the mark at the end of its line, or ''."""
    lower: str
    level: str
    upper: str
    marginal: str
    mark: str = ''


class Status(NamedTuple):
    """A status of a model or of a solver: its number and its text."""
    code: int
    text: str


class Counts(NamedTuple):
    """How many rows, columns and numbers other than 0 the whole linear program has."""
    rows: int
    columns: int
    nonzeros: int


class Effort(NamedTuple):
    """The solver, the pivots that it took and how many were allowed."""
    solver: str
    pivots: int
    limit: int


@dataclass
class Block:
    """The levels of one equation (kind EQU) or of one variable (kind VAR), by elements."""
    kind: str
    name: str
    figures: Dict[str, Figures] = field(default_factory=dict)


@dataclass
class PrintedRows:
    """The rows of one equation that the listing prints, and how many more there are."""
    name: str
    # Each as it is printed, without its first blank.
    rows: List[str] = field(default_factory=list)
    hidden: int = 0


@dataclass
class PrintedColumn:
    """A column: its element, its bounds as printed, and its entries, each a number and a row."""
    element: str
    lower: str
    upper: str
    entries: List[Tuple[str, str]] = field(default_factory=list)


@dataclass
class PrintedColumns:
    """The columns of one variable that the listing prints, and how many more there are."""
    name: str
    columns: List[PrintedColumn] = field(default_factory=list)
    hidden: int = 0


@dataclass
class Proof:
    """A certificate. `numbers` has, by the word before them, elements with their exact numbers."""
    kind: str
    numbers: Dict[str, Dict[str, Fraction]] = field(default_factory=dict)
    bound: Optional[Fraction] = None
    missing: Optional[int] = None                    # the step of `bound not shown, Check part N`
    crossed: Optional[Tuple[str, str, str]] = None   # the column, its lower and its upper bound
    step: str = ''                                   # of a refused solve
    phase: Optional[Tuple[int, int]] = None          # of an interrupted solve, with its pivots

    def of(self, word: str) -> Dict[str, Fraction]:
        """The numbers after this word; an element that is not listed has 0."""
        return self.numbers.get(word, {})


@dataclass
class Solve:
    """One solve of the listing."""
    number: int
    line: int
    model: str
    direction: str                                   # minimizing or maximizing
    objective: str
    rows: List[PrintedRows] = field(default_factory=list)
    columns: List[PrintedColumns] = field(default_factory=list)
    counts: Optional[Counts] = None
    effort: Optional[Effort] = None
    solver_status: Optional[Status] = None
    model_status: Optional[Status] = None
    value: str = ''                                  # the objective's level as printed
    blocks: List[Block] = field(default_factory=list)
    proof: Optional[Proof] = None
    is_whole: bool = False                           # whether the listing continues after it

    @property
    def is_minimizing(self) -> bool:
        return self.direction == 'minimizing'

    @property
    def code(self) -> int:
        """The number of the model status; 0 where the listing ends before it."""
        return self.model_status.code if self.model_status else 0

    def figures(self, kind: str) -> Dict[str, Figures]:
        """The printed numbers of all rows (EQU) or of all columns (VAR)."""
        found: Dict[str, Figures] = {}
        for block in self.blocks:
            if block.kind == kind:
                found.update(block.figures)
        return found


@dataclass
class Display:
    """One item of a display or of an abort. A scalar has `value`, others have `entries`."""
    after: int                                       # how many solves come before it
    line: int
    # SET, PARAMETER, VARIABLE, EQUATION, SCALAR, TEXT.
    kind: str
    name: str                                        # of a TEXT the text
    value: str = ''
    entries: List[Tuple[str, str]] = field(default_factory=list)   # element, number ('' in a set)
    count: int = 0                                   # of entries, kept or not
    # The least number of an entry, where it is kept.
    least: str = ''
    most: str = ''


class Error(NamedTuple):
    """An error line: kind Source, Compile or Execution, and its place."""
    kind: str
    code: int
    name: str
    line: int
    column: int
    where: str = ''                                  # labels of controlled sets, as printed
    count: str = ''


@dataclass
class Listing:
    """A whole listing, or what there is of one that was cut off."""
    name: str
    echo: List[bytes] = field(default_factory=list)
    first_line: int = 1                              # the number of the first echoed line
    errors: List[Error] = field(default_factory=list)
    solves: List[Solve] = field(default_factory=list)
    begun: int = 0                                   # the solves of the listing, kept or not
    has_other: bool = False                          # whether one that is not kept is not optimal
    displays: List[Display] = field(default_factory=list)
    status: Optional[int] = None                     # of the last line; none where it was cut off
    answered: int = 0                                # the solves that the last line counts
    cut: str = ''                                    # the part of a line at which it was cut off
    lines: int = 0

    @property
    def is_cut(self) -> bool:
        return self.status is None

    @property
    def is_restarted(self) -> bool:
        """Whether the run resumed a saved state, whose source the listing does not show."""
        return self.first_line > 1
