"""Finds a symbol by its name: in a solve's levels, in its certificate, or in a display."""
from dataclasses import dataclass
from typing import Dict, Iterable, List, Optional, Tuple

from .exact import decimal_text
from .labels import Labels, Reading
from .model import Display, Figures, Listing, Problem, Solve
from .words import USAGE, listed

SUFFIXES = {'level': 'l', 'marginal': 'm', 'lower': 'lo', 'upper': 'up'}
NO_FIGURES = Figures('', '', '', '')


@dataclass
class Cell:
    """One element of a symbol: its labels and its numbers as printed."""
    element: str
    reading: Reading
    figures: Figures


@dataclass
class Symbol:
    """A symbol with its elements. `figures` names the numbers that it has."""
    name: str
    kind: str
    cells: List[Cell]
    figures: Tuple[str, ...]

    def ambiguous(self) -> Optional[str]:
        """An element that can be read in several ways."""
        return next((cell.element for cell in self.cells if not cell.reading.is_certain), None)


def solved_names(solve: Solve) -> Dict[str, str]:
    """The names of equations and variables of a solve, with EQU or VAR where it is known."""
    names = {part.name: 'EQU' for part in solve.rows}
    names.update({part.name: 'VAR' for part in solve.columns})
    names.update({block.name: block.kind for block in solve.blocks})
    if solve.proof:
        for word in ('level', 'point', 'ray'):
            names.update({element.partition('(')[0]: 'VAR' for element in solve.proof.of(word)})
        # All variables, or equations, are named.
        other = 'EQU' if solve.columns else 'VAR' if solve.rows else ''
        for word in ('marginal', 'row'):
            for element in solve.proof.of(word):
                names.setdefault(element.partition('(')[0], 'EQU' if word == 'row' else other)
    return names


def proved_figures(solve: Solve, name: str) -> Dict[str, Figures]:
    """What the certificate has of a symbol whose levels are not printed (option solprint = off)."""
    found: Dict[str, Figures] = {}
    if solve.proof:
        for word, place in (('level', 'level'), ('point', 'level'), ('marginal', 'marginal')):
            for element, value in solve.proof.of(word).items():
                if element.partition('(')[0].lower() == name.lower():
                    before = found.get(element, NO_FIGURES)
                    found[element] = before._replace(**{place: decimal_text(value)})
    return found


def of_solve(solve: Solve, name: str, labels: Labels) -> Optional[Symbol]:
    """The equation or variable of this name, from the printed levels or else from the
    certificate."""
    for block in solve.blocks:
        if block.name.lower() == name.lower():
            cells = [Cell(it, labels.of_element(it), figures) for it, figures in block.figures.items()]
            return Symbol(block.name, 'equation' if block.kind == 'EQU' else 'variable', cells,
                          ('lower', 'level', 'upper', 'marginal'))
    proved = proved_figures(solve, name)
    if not proved:
        return None
    return Symbol(next(iter(proved)).partition('(')[0], 'certificate',
                  [Cell(it, labels.of_element(it), figures) for it, figures in proved.items()], ('level', 'marginal'))


def of_display(display: Display, labels: Labels) -> Symbol:
    """A displayed symbol; its number is the level."""
    if display.value:
        cells = [Cell(display.name, Reading(()), NO_FIGURES._replace(level=display.value))]
    else:
        is_set = display.kind == 'SET'
        cells = [Cell(text, labels.of_entry(display.name, text, not is_set),
                      NO_FIGURES._replace(level='yes' if is_set else value)) for text, value in display.entries]
    return Symbol(display.name, display.kind.lower(), cells, ('level',))


def names_in(listing: Listing, solve: Optional[Solve]) -> List[str]:
    """What `table` and `csv` can show."""
    names = list(solved_names(solve)) if solve else []
    names += [it.name for it in listing.displays if it.kind != 'TEXT']
    return list(dict.fromkeys(names))


def unknown(name: str, names: Iterable[str], listing: Listing) -> Problem:
    """That there is no such name, and which there are."""
    known = list(names)
    has = 'it has %s' % listed(known[:12]) if known else 'it has no solve and no display'
    more = ' and %d more' % (len(known) - 12) if len(known) > 12 else ''
    return Problem('%s shows no %s; %s%s' % (listing.name, name, has, more), USAGE)
