"""`why`: the reason of an answer in sentences, from its certificate."""
from fractions import Fraction
from math import gcd
from typing import Dict, List, Optional, Tuple

from .check import sum_of
from .exact import plain_text, reader_text
from .model import Listing, Problem, Proof, Solve
from .program import Program, Row, Terms, program_of, shown_row, shown_terms
from .words import NO_LISTING, counted, listed

ZERO = Fraction(0)
MOST = 20                     # rows or columns that a list names before it only counts

STEPS = {
    'Standard': 'while bounds were taken out of the right sides, before the first pivot',
    'Ratio': 'while the ratio of a row was computed, in a pivot',
    'Exchange': 'while a row was exchanged, in a pivot',
    'Recover': 'while the answer was read off, after the last pivot',
}


def scaled(factors: Dict[str, Fraction]) -> Tuple[Dict[str, Fraction], Fraction]:
    """The factors as the least integers in the same proportion, and what they were multiplied
    by."""
    common, shared = 1, 0
    for value in factors.values():
        common = common * value.denominator // gcd(common, value.denominator)
    for value in factors.values():
        shared = gcd(shared, int(value * common))
    by = Fraction(common, shared or 1)
    return {element: value * by for element, value in factors.items()}, by


def times(factor: Fraction, text: str) -> str:
    """A text with the number of times that it is taken, left out for once."""
    return text if abs(factor) == 1 else '%s times %s' % (plain_text(abs(factor)), text)


def side_sentence(parts: List[Tuple[str, Fraction]], total: Fraction, is_least: bool) -> str:
    """What rows and bounds require together, or supply together."""
    names = [times(factor, element) for element, factor in parts]
    shown = names if len(names) <= MOST else names[:MOST] + ['%d more' % (len(names) - MOST)]
    together = ' together' if len(names) > 1 else ''
    if is_least:
        verb = 'ask for' if len(names) > 1 else 'asks for'
        return '%s%s %s at least %s' % (listed(shown), together, verb, plain_text(total))
    verb = 'give' if len(names) > 1 else 'gives'
    return '%s%s %s at most %s' % (listed(shown), together, verb, plain_text(total))


class Conflict:
    """Rows and bounds that cannot hold together: what must be at least so much, and at most so
    much."""

    def __init__(self, program: Program, factors: Dict[str, Fraction]) -> None:
        self.factors, self.by = scaled(factors)
        self.program = program
        self.least: List[Tuple[str, Fraction]] = []
        self.most: List[Tuple[str, Fraction]] = []
        self.demand = self.supply = ZERO
        self.sum: Terms = {}
        self.unknown: List[str] = []
        self.unbounded: List[str] = []
        rest: Terms = {}
        for element, factor in self.factors.items():
            row = program.rows.get(element)
            if row is None:
                self.unknown.append(element)
                continue
            self.take_row(row, factor)
            for column, value in row.terms.items():
                rest[column] = rest.get(column, ZERO) - factor * value
        if not self.unknown:
            for column, value in rest.items():
                self.take_bound(column, value)

    def take_row(self, row: Row, factor: Fraction) -> None:
        """Puts a row on its side."""
        if factor > 0:
            self.least.append((row.element, factor))
            self.demand += factor * row.right
            for column, value in row.terms.items():
                self.sum[column] = self.sum.get(column, ZERO) + factor * value
        else:
            self.most.append((row.element, -factor))
            self.supply -= factor * row.right

    def take_bound(self, column: str, value: Fraction) -> None:
        """Puts the bound of a column on its side, as often as the rows leave the column over."""
        if not value:
            return
        bounds = self.program.bounds.get(column)
        bound = (bounds.lower if value > 0 else bounds.upper) if bounds else None
        if bounds is None:
            self.unknown.append(column)
        elif bound is None:
            self.unbounded.append(column)
        elif value > 0:
            self.least.append(('the lower bound of %s' % column, value))
            self.demand += value * bound
            self.sum[column] = self.sum.get(column, ZERO) + value
        else:
            self.most.append(('the upper bound of %s' % column, -value))
            self.supply -= value * bound


def factor_lines(conflict: Conflict) -> List[str]:
    """Each row of the certificate with its factor and its terms."""
    lines = []
    for element, factor in list(conflict.factors.items())[:MOST]:
        row = conflict.program.rows.get(element)
        lines.append('  %s %s: %s' % (plain_text(abs(factor)).rjust(4) + ' x', element, shown_row(row) if row else 'not printed'))
    if len(conflict.factors) > MOST:
        lines.append('  and %d rows more' % (len(conflict.factors) - MOST))
    return lines


def why_infeasible(proof: Proof, program: Program) -> List[str]:
    """Which rows and bounds cannot hold together."""
    if proof.crossed:
        element, lower, upper = proof.crossed
        return ['The bounds of %s cross: it must be at least %s and at most %s.' % (element, lower, upper),
                'Look where the source sets %s.lo and %s.up.' % ((element.partition('(')[0],) * 2)]
    conflict = Conflict(program, proof.of('row'))
    lines = ['These rows cannot hold together; the number before each is its factor:'] + factor_lines(conflict)
    if conflict.unknown:
        return lines + ['%s %s not printed. Set  %s  before the solve to see the whole reason.'
                        % (listed(conflict.unknown[:MOST]), 'is' if len(conflict.unknown) == 1 else 'are', program.options())]
    if conflict.unbounded:
        return lines + ['The printed numbers are rounded, so that they do not cancel %s; they show the conflict, not its exact sum.'
                        % listed(conflict.unbounded[:MOST])]
    gap = conflict.demand - conflict.supply
    total = shown_terms(conflict.sum, 8)
    lines.append('Added up, both sides are the same sum:  %s' % total)
    lines.append('- %s.' % side_sentence(conflict.least, conflict.demand, True) if conflict.least
                 else '- it must be at least 0, as it has no terms.')
    lines.append('- %s.' % side_sentence(conflict.most, conflict.supply, False) if conflict.most
                 else '- it is at most 0, as it has no terms.')
    if gap > 0:
        lines.append('%s is more than %s: %s too much is asked for. One of these rows or bounds has to give way.'
                     % (plain_text(conflict.demand), plain_text(conflict.supply), plain_text(gap)))
    else:
        lines.append('The printed numbers are rounded, so that the sum does not show the conflict exactly; the certificate says it is %s.'
                     % (plain_text(proof.bound) if proof.bound is not None else 'above 0'))
    return lines


def moves_in_words(ray: Dict[str, Fraction], objective: str) -> List[str]:
    """What the ray does with each column, for a step as small as integers allow."""
    parts = ['%s %s by %s' % (element, 'rises' if value > 0 else 'falls', plain_text(abs(value)))
             for element, value in ray.items() if element != objective]
    return parts if len(parts) <= MOST else parts[:MOST] + ['%d more columns move' % (len(parts) - MOST)]


def why_unbounded(solve: Solve, proof: Proof, program: Program) -> List[str]:
    """What can be done without end, and what keeps it possible."""
    ray, _ = scaled(proof.of('ray'))
    gain = ray.get(solve.objective, ZERO)
    moves = moves_in_words(ray, solve.objective)
    lines = ['%s %s without end. One step:' % (solve.objective, 'falls' if solve.is_minimizing else 'rises')]
    lines += ['  %s' % it for it in moves]
    lines.append('Each step changes %s by %s, and can be repeated for ever: it keeps every row and every bound.'
                 % (solve.objective, plain_text(gain)))
    slack = []
    for row in program.rows.values():
        change, _ = sum_of(row.terms, ray)
        if change and row.sense in 'LG':
            slack.append('%s by %s' % (row.element, plain_text(change)))
    if slack:
        lines.append('Only rows with room move: %s.' % listed(slack[:MOST]))
    free = []
    for element, value in ray.items():
        bounds = program.bounds.get(element)
        if bounds and element != solve.objective:
            free.append('%s has no %s bound' % (element, 'upper' if value > 0 else 'lower'))
    lines += ['  %s' % it for it in free[:MOST]]
    lines.append('A limit is missing on %s: a bound, or a row that these columns use up.'
                 % listed([it for it in ray if it != solve.objective][:MOST] or [solve.objective], 'or'))
    return lines


def why_refused(proof: Proof) -> List[str]:
    """The step that did not fit, and what to do."""
    kind = proof.step.split(' ', 1)[0]
    return ['A number on the way does not fit: the parts of a fraction have at most 127 bits.',
            'It is the step %s, %s.' % (proof.step, STEPS.get(kind, 'of the solver')),
            'Nothing is known of the model. What helps:',
            '- option lp = any;  it tries several rules in turn, whose numbers may stay short on the way',
            '- data with fewer digits: 0.333 in place of 1/3, 1.05 in place of 1.0487',
            '- units in which the numbers are of a like size']


def why_interrupted(solve: Solve, proof: Proof) -> List[str]:
    """That the pivots ran out, and what to do."""
    limit = solve.effort.limit if solve.effort else 0
    phase = proof.phase[0] if proof.phase else 1
    lines = ['The solver stopped after %s, as many as option iterlim allows.' % counted(limit, 'pivot')]
    if phase == 1:
        lines.append('No plan was found yet; nothing says whether there is one.')
    else:
        lines.append('The levels are a possible plan with %s = %s; a better one may exist.' % (solve.objective, solve.value))
    return lines + ['Set  option iterlim = %d;  or more before the solve, or  option lp = dantzig;  which needs fewer pivots on many models.'
                    % max(1000, 10 * limit)]


def is_row(element: str, solve: Solve, program: Program) -> Optional[bool]:
    """Whether a marginal is that of a row."""
    if element in program.limits or element in solve.figures('EQU'):
        return True
    if element in program.bounds or element in program.entries:
        return False
    name = element.partition('(')[0]
    kinds = {it.name: True for it in solve.rows}
    kinds.update({it.name: False for it in solve.columns})
    return kinds.get(name)


def marginal_line(element: str, value: Fraction, solve: Solve, program: Program) -> str:
    """A binding row in words: its limit and what one unit more of it changes."""
    limit = program.limits.get(element)
    sign = {'E': '=', 'L': '<=', 'G': '>=', 'N': ''}
    text = '%s %s %s' % (element, sign[limit[0]], plain_text(limit[1])) if limit else element
    return '  %s: one unit more changes %s by %s' % (text, solve.objective, signed(value))


def signed(value: Fraction) -> str:
    return ('+' if value > 0 else '') + reader_text(value)


def why_optimal(solve: Solve, proof: Proof, program: Program) -> List[str]:
    """The binding rows and bounds, the dearest first."""
    marginals = sorted(proof.of('marginal').items(), key=lambda it: -abs(it[1]))
    rows = [it for it in marginals if is_row(it[0], solve, program) is not False]
    columns = [it for it in marginals if is_row(it[0], solve, program) is False]
    level = proof.of('level').get(solve.objective, ZERO)
    better = 'less' if solve.is_minimizing else 'more'
    lines = ['%s = %s is the best: no plan has %s. What holds it there, the dearest first.' % (solve.objective, reader_text(level), better)]
    if rows:
        lines.append('Binding rows (%d):' % len(rows))
        lines += [marginal_line(element, value, solve, program) for element, value in rows[:MOST]]
        lines += ['  and %d more' % (len(rows) - MOST)] if len(rows) > MOST else []
    if columns:
        lines.append('Columns at a bound, and what one unit more of each changes (%d):' % len(columns))
        lines += ['  %s: %s' % (element, signed(value)) for element, value in columns[:MOST]]
        lines += ['  and %d more' % (len(columns) - MOST)] if len(columns) > MOST else []
    lines.append('This holds for small changes; gams25 --ranges says how far.')
    return lines


def why_lines(solve: Solve) -> List[str]:
    """The reason of a solve's answer."""
    proof = solve.proof
    if proof is None or not solve.is_whole:
        return ['The listing was cut off in this solve, before or in its certificate.']
    program = program_of(solve)
    if proof.kind == 'Infeasible':
        return why_infeasible(proof, program)
    if proof.kind == 'Unbounded':
        return why_unbounded(solve, proof, program)
    if proof.kind == 'Refused':
        return why_refused(proof)
    if proof.kind == 'Interrupted':
        return why_interrupted(solve, proof)
    if proof.kind == 'Optimal':
        return why_optimal(solve, proof, program)
    raise Problem('the certificate %s is not known' % proof.kind, NO_LISTING)


def why_head(solve: Solve, listing: Listing) -> str:
    """The solve that is explained."""
    of = ' of %d' % len(listing.solves) if len(listing.solves) > 1 else ''
    status = solve.model_status.text if solve.model_status else 'cut off'
    return 'Solve %d%s, line %d: %s %s %s: %s' % (solve.number, of, solve.line, solve.model, solve.direction, solve.objective, status)

