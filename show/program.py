"""The linear program of a solve as the listing prints it: rows, columns, and what is left out."""
import re
from dataclasses import dataclass, field
from fractions import Fraction
from typing import Dict, Iterable, Iterator, List, Optional, Set, Tuple

from .exact import MINUS_INFINITY, PLUS_INFINITY, is_decimal, number_of, plain_text
from .model import Figures, PrintedColumn, Problem, Solve
from .words import NO_LISTING

COMPARED = re.compile(r'(.*) =([ELGN])= (\S+)\Z', re.S)
TERM = re.compile(r'(?:\A| )([+-]) (\d+(?:\.\d+)?)\*(?=[A-Za-z])')
NAME = re.compile(r'[A-Za-z]\w*\Z')

Terms = Dict[str, Fraction]
Limit = Tuple[str, Fraction]            # the sense of a row and its right side


@dataclass
class Row:
    """A row: its terms, how they compare (E, L, G or N), and the right side."""
    element: str
    terms: Terms
    sense: str
    right: Fraction


@dataclass
class Bounds:
    """The bounds of a column; none where there is no end."""
    lower: Optional[Fraction]
    upper: Optional[Fraction]


@dataclass
class Program:
    """What the listing tells of a linear program."""
    objective: str
    is_minimizing: bool
    rows: Dict[str, Row] = field(default_factory=dict)             # those whose terms are printed
    # By column, where all of it is printed.
    entries: Dict[str, Terms] = field(default_factory=dict)
    limits: Dict[str, Limit] = field(default_factory=dict)         # of rows
    bounds: Dict[str, Bounds] = field(default_factory=dict)        # of columns
    has_rows: bool = False                                         # whether all rows are known
    # Whether all columns with their bounds are.
    has_columns: bool = False
    limrow: int = 0                                                # what prints all rows
    limcol: int = 0                                                # what prints all columns
    # Places where the listing contradicts itself.
    clashes: List[str] = field(default_factory=list)

    def options(self) -> str:
        """The options with which the listing would print the whole linear program."""
        return 'option limrow = %d, limcol = %d;' % (max(1, self.limrow), max(1, self.limcol))


def is_element(text: str, known: Set[str]) -> bool:
    """Whether a text is an element; with known columns, one of them."""
    if known:
        return text in known
    name, found, rest = text.partition('(')
    return NAME.match(name) is not None and (not found or rest.endswith(')'))


def terms_of(text: str, known: Set[str]) -> Optional[Terms]:
    """The terms of a row; none where the text has none. A label may itself look like a term."""
    if text == '0':
        return {}
    marks = list(TERM.finditer(text))
    if not marks or marks[0].start() != 0:
        return None
    terms: Terms = {}
    place = 0
    while place < len(marks):
        mark = marks[place]
        ends = [it.start() for it in marks[place + 1:]] + [len(text)]
        for count, end in enumerate(ends):
            element = text[mark.end():end]
            if is_element(element, known):
                break
        else:
            return None
        if element in terms:
            return None
        terms[element] = Fraction(mark[2]) * (-1 if mark[1] == '-' else 1)
        place += count + 1
    return terms


def row_of(text: str, known_rows: Set[str], known_columns: Set[str]) -> Row:
    """The row of a printed line."""
    found = COMPARED.match(text)
    right = number_of(found[3]) if found and is_decimal(found[3]) else None
    place = text.find('.. ')
    while found and right is not None and place >= 0:
        element = text[:place]
        if is_element(element, known_rows):
            terms = terms_of(found[1][place + 3:], known_columns)
            if terms is not None:
                return Row(element, terms, found[2], right)
        place = text.find('.. ', place + 1)
    raise Problem('a row cannot be read: %s' % text[:60], NO_LISTING)


def limit_of(figures: Figures) -> Optional[Limit]:
    """How a row compares, from the ends that the block of levels prints; none for ends that no row
    has."""
    lower, upper = figures.lower, figures.upper
    if lower == MINUS_INFINITY and upper == PLUS_INFINITY:
        return 'N', Fraction(0)
    least, most = number_of(lower), number_of(upper)
    if lower == MINUS_INFINITY and most is not None:
        return 'L', most
    if upper == PLUS_INFINITY and least is not None:
        return 'G', least
    return ('E', least) if least is not None and least == most else None


def bounds_of(lower: str, upper: str) -> Bounds:
    """The bounds of a column, from their printed texts."""
    return Bounds(number_of(lower), number_of(upper))


def printed_columns(solve: Solve) -> Iterator[PrintedColumn]:
    for part in solve.columns:
        yield from part.columns


def put_rows(program: Program, solve: Solve) -> None:
    """Puts the printed rows into the program, and the limits of all rows that the levels show."""
    known_rows = set(solve.figures('EQU'))
    known_columns = set(solve.figures('VAR')) or {it.element for it in printed_columns(solve)}
    if any(part.hidden for part in solve.columns) and not solve.figures('VAR'):
        known_columns = set()
    for part in solve.rows:
        for text in part.rows:
            row = row_of(text, known_rows, known_columns)
            program.rows[row.element] = row
            program.limits[row.element] = row.sense, row.right
    for element, figures in solve.figures('EQU').items():
        limit = limit_of(figures)
        if limit is None:
            program.clashes.append('row %s has the ends %s and %s, which no row has' % (element, figures.lower, figures.upper))
        elif not is_same_limit(program.limits.setdefault(element, limit), limit):
            program.clashes.append('row %s is =%s= %s where the rows are printed, and has the ends %s and %s where the levels are'
                                   % (element, program.limits[element][0], plain_text(program.limits[element][1]),
                                      figures.lower, figures.upper))


def is_same_limit(a: Limit, b: Limit) -> bool:
    """Whether two limits are equal; the right side of a row =N= does not count."""
    return a[0] == b[0] and (a[0] == 'N' or a[1] == b[1])


def put_columns(program: Program, solve: Solve) -> None:
    """Puts the printed columns into the program, and the bounds of all columns that the levels
    show."""
    for column in printed_columns(solve):
        terms: Terms = {}
        for text, row in column.entries:
            terms[row] = number_of(text) or Fraction(0)
        program.entries[column.element] = terms
        program.bounds[column.element] = bounds_of(column.lower, column.upper)
    for element, figures in solve.figures('VAR').items():
        bounds = bounds_of(figures.lower, figures.upper)
        if program.bounds.setdefault(element, bounds) != bounds:
            program.clashes.append('column %s has other bounds where the columns are printed than where the levels are: %s and %s'
                                   % (element, figures.lower, figures.upper))


def compare_entries(program: Program) -> None:
    """Tells where a number is printed in a row otherwise than in a column."""
    for column, terms in program.entries.items():
        for row, value in terms.items():
            if row in program.rows and program.rows[row].terms.get(column) != value:
                there = program.rows[row].terms.get(column, Fraction(0))
                program.clashes.append('the number of %s in row %s is %s in the row and %s in the column'
                                       % (column, row, plain_text(there), plain_text(value)))
    for row, it in program.rows.items():
        for column, value in it.terms.items():
            if column in program.entries and row not in program.entries[column]:
                program.clashes.append('the number of %s in row %s is %s in the row, and the column has none'
                                       % (column, row, plain_text(value)))


def complete(program: Program) -> None:
    """Makes columns of whole rows, and rows of whole columns."""
    if program.has_rows:
        whole: Dict[str, Terms] = {element: {} for element in program.bounds}
        for row in program.rows.values():
            for column, value in row.terms.items():
                whole.setdefault(column, {})[row.element] = value
        for column, terms in whole.items():
            program.entries.setdefault(column, terms)
    elif program.has_columns and len(program.entries) == len(program.bounds):
        for element, (sense, right) in program.limits.items():
            if element not in program.rows:
                terms = {column: it[element] for column, it in program.entries.items() if element in it}
                program.rows[element] = Row(element, terms, sense, right)


def most_of(shown: Iterable[Tuple[int, int]], has_part: bool, count: int) -> int:
    """The least limrow or limcol that prints all: of the largest part, or the count where none is
    printed."""
    return max((a + b for a, b in shown), default=0) if has_part else count


def program_of(solve: Solve) -> Program:
    """The linear program of a solve, as far as the listing prints it."""
    program = Program(solve.objective, solve.is_minimizing)
    put_rows(program, solve)
    put_columns(program, solve)
    compare_entries(program)
    counts = solve.counts
    total_rows, total_columns = (counts.rows, counts.columns) if counts else (-1, -1)
    program.limrow = most_of([(len(it.rows), it.hidden) for it in solve.rows], bool(solve.rows), total_rows)
    program.limcol = most_of([(len(it.columns), it.hidden) for it in solve.columns], bool(solve.columns), total_columns)
    all_printed = bool(solve.columns) and not any(it.hidden for it in solve.columns)
    program.has_rows = bool(solve.rows) and not any(it.hidden for it in solve.rows) and len(program.rows) == total_rows
    program.has_columns = (all_printed or bool(solve.figures('VAR'))) and len(program.bounds) == total_columns
    if program.has_rows:
        program.has_columns = program.has_columns and all(
            column in program.bounds for row in program.rows.values() for column in row.terms)
    complete(program)
    if not program.has_rows and len(program.rows) == total_rows:
        program.has_rows = all_printed and len(program.entries) == total_columns
    return program


def shown_row(row: Row, most: int = 6) -> str:
    """A row for a reader: its terms, how they compare, and the right side; a long one is
    shortened."""
    sign = {'E': '=', 'L': '<=', 'G': '>=', 'N': '(free)'}[row.sense]
    return '%s %s %s' % (shown_terms(row.terms, most), sign, plain_text(row.right))


def shown_terms(terms: Terms, most: int = 6) -> str:
    """A sum of terms for a reader; factors 1 are left out."""
    parts: List[str] = []
    for element, value in list(terms.items())[:most]:
        size = abs(value)
        text = element if size == 1 else '%s %s' % (plain_text(size), element)
        parts.append(('- ' if value < 0 else '+ ' if parts else '') + text)
    if len(terms) > most:
        parts.append('+ .. (%d more)' % (len(terms) - most))
    return ' '.join(parts) or '0'

