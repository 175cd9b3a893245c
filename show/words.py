"""Statuses and kinds in words, and the exit status that a listing leads to."""
from typing import Dict, List

from . import model as m
from .exact import rounded
from .model import Listing, Solve

DONE, NOT_OPTIMAL, STOPPED, NO_LISTING, USAGE, WRITE_FAULT = 0, 1, 2, 3, 4, 5

MEANINGS: Dict[int, str] = {
    m.OPTIMAL: 'optimal: no plan is better',
    m.UNBOUNDED: 'unbounded: the objective gets better without end',
    m.INFEASIBLE: 'infeasible: no plan keeps all rows and bounds',
    m.INTERMEDIATE_INFEASIBLE: 'interrupted: the pivots ran out before a plan was found',
    m.INTERMEDIATE_NONOPTIMAL: 'interrupted: the pivots ran out at a plan that may not be the best one',
    m.NO_SOLUTION: 'refused: a number on the way does not fit in 127 bits',
}
RUNS: Dict[int, str] = {
    0: 'every statement was executed',
    2: 'refused: nothing was executed',
    3: 'stopped by an error',
}


def counted(number: int, noun: str, plural: str = '') -> str:
    """A number with its noun."""
    return '%d %s' % (number, noun if number == 1 else plural or noun + 's')


def listed(texts: List[str], last: str = 'and') -> str:
    """Texts as a sentence lists them."""
    if len(texts) < 2:
        return ''.join(texts)
    return '%s %s %s' % (', '.join(texts[:-1]), last, texts[-1])


def meaning_of(solve: Solve) -> str:
    """The status of a solve in words."""
    if solve.model_status is None:
        return 'cut off: the listing ends before the status'
    return MEANINGS.get(solve.code, 'status %d %s' % solve.model_status)


def run_in_words(listing: Listing) -> str:
    """How the run ended."""
    if listing.status is None:
        return 'cut off: the listing has no last line, as after exit status 5 or 6 of gams25'
    return RUNS.get(listing.status, 'status %d' % listing.status)


def exit_status(listing: Listing) -> int:
    """What a script is told: stopped, not optimal, or done."""
    if listing.is_cut or listing.errors or listing.status != 0:
        return STOPPED
    is_optimal = not listing.has_other and all(solve.code == m.OPTIMAL for solve in listing.solves)
    return DONE if is_optimal else NOT_OPTIMAL


def objective_text(solve: Solve) -> str:
    """The objective as printed, and exactly where the certificate has more than three decimals."""
    text = solve.value or 'not printed'
    word = {m.OPTIMAL: 'level', m.UNBOUNDED: 'point', m.INTERMEDIATE_NONOPTIMAL: 'point'}.get(solve.code)
    if not word:
        return text if solve.code == 0 else '%s, which is the level from before: this solve gave none' % text
    exact = solve.proof.of(word).get(solve.objective) if solve.proof else None
    return text if exact is None or rounded(exact) == exact else '%s (exactly %s)' % (text, exact)
