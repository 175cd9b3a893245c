"""`diff`: what changed between two scenarios: status, objective, and each level and marginal."""
from dataclasses import dataclass
from fractions import Fraction
from typing import Dict, List, Optional, Tuple

from . import model as m
from .cli import Request
from .exact import decimal_text, number_of, plain_text, rounded
from .model import Listing, Solve
from .output import cut, say, terminal_width, width_of
from .reader import chosen, read_listing
from .words import counted, exit_status, meaning_of

WITH_LEVELS = (m.OPTIMAL, m.UNBOUNDED, m.INTERMEDIATE_NONOPTIMAL)
ZERO = Fraction(0)
# By the element in lower case: as written, and its number.
Numbers = Dict[str, Tuple[str, Fraction]]


@dataclass
class Change:
    """An element whose number changed."""
    element: str
    before: Fraction
    after: Fraction

    @property
    def gap(self) -> Fraction:
        return self.after - self.before


def numbers_of(solve: Solve, figure: str, has_all: bool) -> Numbers:
    """The levels or marginals: exact from the certificate, else as printed. Certificates have no
    levels of rows."""
    proof = solve.proof
    exact: Dict[str, Fraction] = {}
    if proof:
        exact = proof.of('marginal') if figure == 'marginal' else proof.of('level') or proof.of('point')
    found: Numbers = {}
    for kind in ('VAR', 'EQU') if has_all or figure == 'marginal' else ('VAR',):
        for element, figures in solve.figures(kind).items():
            value = exact.get(element, number_of(getattr(figures, figure)))
            if value is not None:
                found[element.lower()] = element, value
    if not solve.blocks:
        found.update({element.lower(): (element, value) for element, value in exact.items()})
    return found


def changes(a: Numbers, b: Numbers, has_all: bool) -> List[Change]:
    """The elements of both whose number changed, the largest difference first; without all levels,
    one that is missing is 0."""
    keys = dict.fromkeys(list(a) + list(b)) if not has_all else dict.fromkeys(key for key in a if key in b)
    found = [Change((a.get(key) or b[key])[0], a[key][1] if key in a else ZERO, b[key][1] if key in b else ZERO) for key in keys]
    return sorted((it for it in found if it.gap), key=lambda it: -abs(it.gap))


def text_of(value: Fraction) -> str:
    """A number in a table: three decimals, and more where these would hide it."""
    return decimal_text(value) if not value or rounded(value) else plain_text(value, 12)


def change_lines(found: List[Change], names: Tuple[str, str], width: int) -> List[str]:
    """The table of changes."""
    rows = [(it.element, text_of(it.before), text_of(it.after), ('+' if it.gap > 0 else '') + text_of(it.gap)) for it in found]
    heads = (cut(names[0], 24), cut(names[1], 24), 'difference')
    sizes = [max([width_of(row[k + 1]) for row in rows] + [width_of(heads[k])]) for k in range(3)]
    room = max(12, width - sum(sizes) - 8)
    first = min(room, max(width_of(row[0]) for row in rows))
    lines = ['  ' + ' ' * first + ''.join('  ' + text.rjust(size) for text, size in zip(heads, sizes))]
    for row in rows:
        label = cut(row[0], first)
        numbers = ''.join('  ' + text.rjust(size) for text, size in zip(row[1:], sizes))
        lines.append('  ' + label + ' ' * (first - width_of(label)) + numbers)
    return lines


def only_lines(a: Solve, b: Solve, names: Tuple[str, str]) -> List[str]:
    """Rows and columns that only one of both has."""
    lines: List[str] = []
    for kind, word in (('EQU', 'row'), ('VAR', 'column')):
        one, other = ({key.lower(): key for key in solve.figures(kind)} for solve in (a, b))
        for there, missing, name in ((one, other, names[0]), (other, one, names[1])):
            only = [text for key, text in there.items() if key not in missing]
            if only:
                lines += ['', '%s only in %s:' % (counted(len(only), word), name)] + ['  %s' % it for it in only]
    return lines


def objective_number(solve: Solve) -> Optional[Fraction]:
    """The objective exactly, where the solve gave levels."""
    if solve.code not in WITH_LEVELS:
        return None
    proof = solve.proof
    exact = (proof.of('level') or proof.of('point')).get(solve.objective) if proof else None
    return exact if exact is not None else number_of(solve.value) if solve.value else None


def head_lines(a: Solve, b: Solve, names: Tuple[str, str]) -> List[str]:
    """Models, statuses and objectives."""
    lines = []
    for name, solve in zip(names, (a, b)):
        value = objective_number(solve)
        shown = '; %s = %s' % (solve.objective, text_of(value)) if value is not None else ''
        lines.append('%s: solve %d, %s, %s%s' % (name, solve.number, solve.model, meaning_of(solve), shown))
    before, after = objective_number(a), objective_number(b)
    if before is not None and after is not None:
        gap = after - before
        told = 'changed by %s%s' % ('+' if gap > 0 else '', text_of(gap)) if gap else 'did not change'
        lines.append('the objective %s' % told)
    return lines


def diff_lines(a: Solve, b: Solve, names: Tuple[str, str]) -> List[str]:
    """What changed from one solve to the other."""
    lines = head_lines(a, b, names)
    without = [name for name, solve in zip(names, (a, b)) if solve.code not in WITH_LEVELS]
    if without:
        return lines + ['', 'There are no levels to compare: %s has none.' % ' and '.join(without)]
    has_all = bool(a.blocks and b.blocks)
    if not has_all:
        lines += ['', 'Levels are not printed in both (option solprint = off): what a certificate does not list counts as 0.']
    for figure, word in (('level', 'Levels'), ('marginal', 'Marginals')):
        found = changes(numbers_of(a, figure, has_all), numbers_of(b, figure, has_all), has_all)
        if found:
            lines += ['', '%s that changed: %d, the largest difference first' % (word, len(found))]
            lines += change_lines(found, names, terminal_width())
        else:
            lines += ['', '%s: none changed' % word]
    return lines + (only_lines(a, b, names) if has_all else [])


def short_names(a: Listing, b: Listing) -> Tuple[str, str]:
    """What the two listings are called: their file names, or their paths where these are equal."""
    first, second = a.name.rsplit('/', 1)[-1], b.name.rsplit('/', 1)[-1]
    return (first, second) if first != second else (a.name, b.name)


def run_diff(request: Request) -> int:
    """The command `diff`."""
    first, second = (read_listing(path, request.solve, [], keeps_rows=False) for path in request.words)
    say(diff_lines(chosen(first, request.solve), chosen(second, request.solve), short_names(first, second)))
    return max(exit_status(first), exit_status(second))
