"""`check`: verifies a printed certificate in exact fractions, over the rows and columns that the
listing prints.

A printed number with three decimals may be rounded by up to 1/2000. So a comparison has three
results: it holds for the printed numbers; it fails, whatever was rounded; or it fails by no more
than rounding may hide, and stays open.
"""
from dataclasses import dataclass, field
from fractions import Fraction
from typing import Dict, List, Optional, Tuple

from . import model as m
from .exact import number_of, plain_text, rounded
from .model import Figures, Proof, Solve
from .program import Program, Terms, program_of

VERIFIED, FALSE, OPEN = 0, 1, 2
ROUNDING = Fraction(1, 2000)
ZERO = Fraction(0)
# By model status: the certificate, and the solver status.
ANSWERS: Dict[int, Tuple[str, int]] = {
    m.OPTIMAL: ('Optimal', 1), m.UNBOUNDED: ('Unbounded', 1), m.INFEASIBLE: ('Infeasible', 1),
    m.INTERMEDIATE_INFEASIBLE: ('Interrupted', 2), m.INTERMEDIATE_NONOPTIMAL: ('Interrupted', 2),
    m.NO_SOLUTION: ('Refused', 4)}


@dataclass
class Findings:
    """What a check found: failures, comparisons that rounding leaves open, and what is not
    printed."""
    failures: List[str] = field(default_factory=list)
    rounded: List[str] = field(default_factory=list)
    missing: List[str] = field(default_factory=list)
    held: int = 0

    def compare(self, gap: Fraction, relation: str, radius: Fraction, text: str) -> None:
        """Compares a difference with 0; the text says what fails."""
        holds = gap == 0 or (relation == '<=' and gap < 0) or (relation == '>=' and gap > 0)
        if holds:
            self.held += 1
        elif abs(gap) <= radius:
            self.rounded.append(text)
        else:
            self.failures.append(text)

    def demand(self, holds: bool, text: str) -> None:
        """Requires what no rounding can change."""
        if holds:
            self.held += 1
        else:
            self.failures.append(text)

    @property
    def result(self) -> int:
        return FALSE if self.failures else OPEN if self.rounded or self.missing else VERIFIED


def sum_of(terms: Terms, values: Dict[str, Fraction]) -> Tuple[Fraction, Fraction]:
    """The sum of factors times values, and how much rounded factors may change it."""
    total, radius = ZERO, ZERO
    for element, factor in terms.items():
        value = values.get(element, ZERO)
        if value:
            total += factor * value
            radius += abs(value) * ROUNDING
    return total, radius


def check_point(program: Program, point: Dict[str, Fraction], word: str, found: Findings) -> None:
    """Whether a point keeps all bounds and rows."""
    for element, bounds in program.bounds.items():
        value = point.get(element, ZERO)
        if bounds.lower is not None:
            found.compare(value - bounds.lower, '>=', ROUNDING, '%s has the %s %s, below its lower bound %s'
                          % (element, word, plain_text(value), plain_text(bounds.lower)))
        if bounds.upper is not None:
            found.compare(value - bounds.upper, '<=', ROUNDING, '%s has the %s %s, above its upper bound %s'
                          % (element, word, plain_text(value), plain_text(bounds.upper)))
    for row in program.rows.values():
        if row.sense != 'N':
            total, radius = sum_of(row.terms, point)
            relation = {'E': '=', 'L': '<=', 'G': '>='}[row.sense]
            found.compare(total - row.right, relation, radius + ROUNDING, 'row %s: the %ss give %s, which is not %s %s'
                          % (row.element, word, plain_text(total), relation, plain_text(row.right)))


def agrees(text: str, value: Fraction) -> bool:
    """Whether a number is printed so in a block of levels."""
    return (text == '.') == (value == 0) and number_of(text) == rounded(value)


def check_blocks(solve: Solve, program: Program, point: Dict[str, Fraction], marginals: Dict[str, Fraction],
                 found: Findings) -> None:
    """Whether the printed levels and marginals are those of the certificate, and row levels the
    sums of the rows."""
    for element, figures in solve.figures('VAR').items():
        check_figures(element, figures, point.get(element, ZERO), marginals.get(element, ZERO), found)
    for element, figures in solve.figures('EQU').items():
        value = marginals.get(element, ZERO)
        found.demand(agrees(figures.marginal, value), 'row %s has the marginal %s in the levels, and %s in the certificate'
                     % (element, figures.marginal, value))
        limit = program.limits.get(element)
        if limit and (limit[0] == 'E' or (value and limit[0] != 'N')):
            found.demand(number_of(figures.level) == rounded(limit[1]), 'row %s has the level %s, and has to reach %s'
                         % (element, figures.level, plain_text(limit[1])))
        row = program.rows.get(element)
        level = number_of(figures.level)
        if row and level is not None:
            total, radius = sum_of(row.terms, point)
            is_held = agrees(figures.level, total)
            found.compare(ZERO if is_held else level - total, '=', radius + ROUNDING if radius else ZERO,
                          'row %s has the level %s, and its terms give %s' % (element, figures.level, plain_text(total)))


def check_figures(element: str, figures: Figures, level: Fraction, marginal: Fraction, found: Findings) -> None:
    found.demand(agrees(figures.level, level), 'column %s has the level %s in the levels, and %s in the certificate'
                 % (element, figures.level, level))
    found.demand(agrees(figures.marginal, marginal), 'column %s has the marginal %s in the levels, and %s in the certificate'
                 % (element, figures.marginal, marginal))


def check_objective(solve: Solve, point: Dict[str, Fraction], found: Findings) -> None:
    """Whether the printed objective is the certificate's."""
    value = point.get(solve.objective, ZERO)
    is_equal = bool(solve.value) and number_of(solve.value) == rounded(value)
    found.demand(is_equal, 'the objective is printed as %s, and is %s in the certificate' % (solve.value or 'nothing', value))


def check_signs(program: Program, duals: Dict[str, Fraction], is_minimizing: bool, found: Findings) -> None:
    """Whether each dual has the sign that its row allows."""
    for element, value in duals.items():
        sense = program.limits[element][0] if element in program.limits else 'E'
        sign = value if is_minimizing else -value
        allowed = {'E': True, 'N': value == 0, 'L': sign <= 0, 'G': sign >= 0}[sense]
        found.demand(allowed, 'row %s is =%s= and has the factor %s, whose sign proves nothing' % (element, sense, value))


def part_of(program: Program, element: str, cost: Fraction, is_minimizing: bool) -> Optional[Fraction]:
    """The bound that a reduced cost uses; none where the column lacks it."""
    bounds = program.bounds[element]
    return bounds.lower if (cost > 0) == is_minimizing else bounds.upper


def dual_sum(program: Program, duals: Dict[str, Fraction], costs: Dict[str, Fraction], is_minimizing: bool,
             found: Findings) -> Optional[Tuple[Fraction, Fraction]]:
    """The bound that duals and reduced costs prove, with its radius; none where something is not
    printed."""
    total, radius, is_whole = ZERO, ZERO, True
    for element, value in duals.items():
        if element not in program.limits:
            is_whole = False
        else:
            total += value * program.limits[element][1]
            radius += abs(value) * ROUNDING
    for element, value in costs.items():
        if value and element not in program.bounds:
            is_whole = False
        elif value:
            bound = part_of(program, element, value, is_minimizing)
            if bound is None:
                found.failures.append('column %s has the reduced cost %s, and lacks the bound that it would use' % (element, value))
                is_whole = False
            else:
                total += value * bound
                radius += abs(value) * ROUNDING
    return (total, radius) if is_whole else None


def split_marginals(program: Program, solve: Solve, found: Findings) -> Tuple[Dict[str, Fraction], Dict[str, Fraction]]:
    """The marginals of rows and those of columns."""
    duals: Dict[str, Fraction] = {}
    costs: Dict[str, Fraction] = {}
    columns = set(program.bounds) | set(program.entries) | set(solve.figures('VAR'))
    rows = set(program.limits) | set(program.rows)
    names = {it.name for it in solve.columns} | {it.name for it in solve.blocks if it.kind == 'VAR'}
    for element, value in (solve.proof.of('marginal') if solve.proof else {}).items():
        is_column = element in columns or (element not in rows and element.partition('(')[0] in names)
        (costs if is_column else duals)[element] = value
        if program.has_rows and program.has_columns:
            found.demand(element in columns or element in rows, 'the certificate names %s, which is no row and no column' % element)
    return duals, costs


def check_optimal(solve: Solve, proof: Proof, program: Program, found: Findings) -> None:
    """Levels keep rows and bounds, signs are allowed, reduced costs are right, and the bound is
    reached."""
    levels = proof.of('level')
    duals, costs = split_marginals(program, solve, found)
    check_point(program, levels, 'level', found)
    check_signs(program, duals, solve.is_minimizing, found)
    for element, terms in program.entries.items():
        total, radius = sum_of(terms, duals)
        cost = (1 if element == solve.objective else 0) - total
        value = costs.get(element, ZERO)
        found.compare(cost - value, '=', radius, 'column %s has the reduced cost %s, and its rows give %s'
                      % (element, plain_text(value), plain_text(cost)))
    proved = dual_sum(program, duals, costs, solve.is_minimizing, found)
    level = levels.get(solve.objective, ZERO)
    if proof.bound is not None:
        found.demand(proof.bound == level, 'the bound is %s, and the objective has the level %s' % (proof.bound, level))
    if proved:
        found.compare(proved[0] - level, '=', proved[1],
                      'rows and reduced costs prove the bound %s, and the objective has the level %s'
                      % (plain_text(proved[0]), plain_text(level)))
    check_blocks(solve, program, levels, proof.of('marginal'), found)
    check_objective(solve, levels, found)
    need_all(program, found)


def need_all(program: Program, found: Findings) -> None:
    """Notes what is not printed and is needed for a whole check."""
    if not program.has_rows:
        found.missing.append('not all rows are printed')
    if not program.has_columns or len(program.entries) < len(program.bounds):
        found.missing.append('not all columns are printed')


def check_ray(solve: Solve, program: Program, ray: Dict[str, Fraction], found: Findings) -> None:
    """Whether a direction keeps bounds and rows and makes the objective better."""
    for element, value in ray.items():
        bounds = program.bounds.get(element)
        if bounds and bounds.lower is not None:
            found.demand(value >= 0, 'the ray takes %s down, which has the lower bound %s' % (element, plain_text(bounds.lower)))
        if bounds and bounds.upper is not None:
            found.demand(value <= 0, 'the ray takes %s up, which has the upper bound %s' % (element, plain_text(bounds.upper)))
    for row in program.rows.values():
        if row.sense != 'N':
            total, radius = sum_of(row.terms, ray)
            relation = {'E': '=', 'L': '<=', 'G': '>='}[row.sense]
            found.compare(total, relation, radius, 'row %s: the ray changes its sum by %s, which is not %s 0'
                          % (row.element, plain_text(total), relation))
    gain = ray.get(solve.objective, ZERO)
    found.demand(gain < 0 if solve.is_minimizing else gain > 0, 'the ray changes the objective by %s, which is not better' % gain)
    for element, figures in solve.figures('VAR').items():
        found.demand((figures.mark == 'UNBND') == (element in ray), 'column %s %s the mark UNBND, and the ray %s it'
                     % (element, 'has' if figures.mark else 'lacks', 'moves' if element in ray else 'does not move'))


def check_unbounded(solve: Solve, proof: Proof, program: Program, found: Findings) -> None:
    """The point is possible, and so is each multiple of the ray from it."""
    check_point(program, proof.of('point'), 'level', found)
    check_ray(solve, program, proof.of('ray'), found)
    check_blocks(solve, program, proof.of('point'), {}, found)
    check_objective(solve, proof.of('point'), found)
    need_all(program, found)


def check_crossed(proof: Proof, program: Program, found: Findings) -> None:
    """A lower bound passes an upper one."""
    element, lower, upper = proof.crossed or ('', '', '')
    least, most = number_of(lower), number_of(upper)
    is_crossed = least is not None and most is not None and least > most
    found.demand(is_crossed, 'the bounds %s and %s of %s do not cross' % (lower, upper, element))
    bounds = program.bounds.get(element)
    if bounds and least is not None and most is not None:
        for value, printed, word in ((least, bounds.lower, 'lower'), (most, bounds.upper, 'upper')):
            found.demand(printed is not None and printed == rounded(value),
                         '%s has another %s bound where columns are printed' % (element, word))
    elif not bounds:
        found.missing.append('the column %s is not printed' % element)


def check_infeasible(proof: Proof, program: Program, found: Findings) -> None:
    """The rows, each times its factor, add up to a sum that no point reaches."""
    if proof.crossed:
        check_crossed(proof, program, found)
        return
    factors = proof.of('row')
    check_signs(program, factors, True, found)
    if program.has_rows or program.limits:
        for element in factors:
            found.demand(element in program.limits or not program.has_rows, 'the certificate names %s, which is no row' % element)
    costs: Dict[str, Fraction] = {}
    radius = ZERO
    is_whole = all(element in program.rows for element in factors)
    for element in factors if is_whole else ():
        for column, value in program.rows[element].terms.items():
            costs[column] = costs.get(column, ZERO) - factors[element] * value
    for column in [it for it, value in costs.items() if value and it not in program.bounds]:
        found.missing.append('the bounds of column %s are not printed' % column)
    if not is_whole:
        found.missing.append('rows of the certificate are not printed')
    elif not found.missing:
        hidden = sum((abs(value) * len(program.rows[element].terms) for element, value in factors.items()), ZERO) * ROUNDING
        before = len(found.failures)
        proved = dual_sum(program, factors, costs, True, found)
        if hidden and len(found.failures) > before and all(abs(value) <= hidden for value in costs.values() if value):
            found.rounded += found.failures[before:]
            del found.failures[before:]
        if proved:
            radius = proved[1]
            bound = proof.bound if proof.bound is not None else proved[0]
            found.compare(proved[0] - bound, '=', radius, 'the rows prove the bound %s, and the certificate has %s'
                          % (plain_text(proved[0]), bound))
            found.compare(min(proved[0], ZERO), '=', radius, 'the rows prove %s, which is not above 0'
                          % plain_text(proved[0]))
    if proof.bound is not None:
        found.demand(proof.bound > 0, 'the bound is %s, which is not above 0' % proof.bound)


def check_statuses(solve: Solve, proof: Proof, found: Findings) -> None:
    """Whether statuses, certificate and counts go together."""
    expected = ANSWERS.get(solve.code)
    solver = solve.solver_status.code if solve.solver_status else 0
    found.demand(expected == (proof.kind, solver), 'model status %d and solver status %d do not go with the certificate %s'
                 % (solve.code, solver, proof.kind))
    if solve.effort:
        _, pivots, limit = solve.effort
        found.demand(pivots <= limit, '%d pivots were taken, and %d allowed' % (pivots, limit))
        if proof.phase:
            found.demand(proof.phase[1] == pivots, 'the certificate has %d pivots, and the solver %d' % (proof.phase[1], pivots))
    if proof.phase:
        found.demand(solve.code == {1: 6, 2: 7}.get(proof.phase[0]), 'phase %d does not go with model status %d'
                     % (proof.phase[0], solve.code))


def check_counts(solve: Solve, program: Program, found: Findings) -> None:
    """Whether as many rows, columns and numbers are printed as the counts say."""
    counts = solve.counts
    if not counts:
        return
    for word, total, parts in (('rows', counts.rows, [(len(it.rows), it.hidden) for it in solve.rows]),
                               ('columns', counts.columns, [(len(it.columns), it.hidden) for it in solve.columns]),
                               ('rows', counts.rows, [(len(solve.figures('EQU')), 0)] if solve.blocks else []),
                               ('columns', counts.columns, [(len(solve.figures('VAR')), 0)] if solve.blocks else [])):
        if parts:
            there = sum(shown + hidden for shown, hidden in parts)
            found.demand(there == total, 'the counts have %d %s, and %d are listed' % (total, word, there))
    if solve.rows and not any(it.hidden for it in solve.rows):
        there = sum(len(row.terms) for row in program.rows.values())
        found.demand(there == counts.nonzeros, 'the counts have %d numbers other than 0, and the rows have %d'
                     % (counts.nonzeros, there))


def check_solve(solve: Solve) -> Findings:
    """Checks the certificate of one solve."""
    found = Findings()
    proof = solve.proof
    if proof is None or not solve.is_whole or not solve.model_status:
        found.missing.append('the listing was cut off in this solve')
        return found
    program = program_of(solve)
    found.failures += program.clashes
    check_statuses(solve, proof, found)
    check_counts(solve, program, found)
    if proof.kind == 'Optimal':
        check_optimal(solve, proof, program, found)
    elif proof.kind == 'Unbounded':
        check_unbounded(solve, proof, program, found)
    elif proof.kind == 'Infeasible':
        check_infeasible(proof, program, found)
    elif proof.kind == 'Interrupted' and proof.phase and proof.phase[0] == 2:
        check_point(program, proof.of('point'), 'level', found)
        check_blocks(solve, program, proof.of('point'), {}, found)
        check_objective(solve, proof.of('point'), found)
        need_all(program, found)
    return found
