"""The result of a check in words."""
from typing import List

from .check import FALSE, OPEN, VERIFIED, Findings
from .model import Listing, Solve
from .program import program_of
from .words import counted


def claim_of(solve: Solve) -> str:
    """What a verified certificate proves."""
    kind = solve.proof.kind if solve.proof else ''
    better = 'smaller' if solve.is_minimizing else 'greater'
    return {'Optimal': 'the levels are possible, and no plan has a %s %s' % (better, solve.objective),
            'Unbounded': 'the point and the ray are possible, and %s gets %s without end' % (solve.objective, better),
            'Infeasible': 'no plan keeps all rows and bounds',
            'Interrupted': 'the point is possible; whether another one is better is not said'}.get(kind, '')


def nothing_to_check(solve: Solve) -> str:
    """Why a solve has nothing that could be checked; empty where it has."""
    kind = solve.proof.kind if solve.proof else ''
    if kind == 'Refused':
        return 'the solver was refused a step and gives no answer; there is nothing to verify'
    if kind == 'Interrupted' and solve.proof and solve.proof.phase and solve.proof.phase[0] == 1:
        return 'the solver was interrupted before it had a plan; there is nothing to verify'
    return ''


def check_lines(solve: Solve, found: Findings) -> List[str]:
    """The result of a check in words."""
    head = 'solve %d, %s' % (solve.number, solve.model)
    if found.result == FALSE:
        more = len(found.failures) - 1
        return ['%s: false' % head, '  %s' % found.failures[0]] + (['  and %s more' % counted(more, 'failure')] if more else [])
    if found.result == VERIFIED and nothing_to_check(solve):
        return ['%s: not decidable' % head, '  %s' % nothing_to_check(solve)]
    if found.result == VERIFIED:
        return ['%s: verified' % head, '  %s' % claim_of(solve),
                '  %s hold in exact fractions, over rows and columns as they are printed' % counted(found.held, 'comparison')]
    lines = ['%s: not decidable' % head] + ['  %s' % it for it in dict.fromkeys(found.missing)]
    if found.missing and solve.is_whole:
        lines.append('  set  %s  before the solve, and run it again' % program_of(solve).options())
    if found.rounded:
        lines += ['  %s' % found.rounded[0],
                  '  rounding may hide that: rows and columns are printed with three decimals, and no option prints more;',
                  '  choose units in which the data have at most three decimals']
    return lines


def result_of(solve: Solve, found: Findings) -> int:
    """The exit status of a check."""
    return OPEN if found.result == VERIFIED and nothing_to_check(solve) else found.result


def last_line(listing: Listing) -> List[str]:
    """Where the last line of a listing contradicts what it shows."""
    if listing.status is None or listing.answered == len(listing.solves):
        return []
    return ['the last line counts %s, and the listing has %d' % (counted(listing.answered, 'solve'), len(listing.solves))]
