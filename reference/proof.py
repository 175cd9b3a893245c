"""The proof of an answer as the listing has it (docs/LISTING.md, "Proofs, and how to check them by
hand").
"""
from typing import Union

from reference.certificate import CheckStep, Sum, dual_bound
from reference.exact import Number
from reference.program import Answer, Column, Program, Row, Step

WORDS = {'Standard': ('row', 'column', 'part'), 'Exchange': ('row', 'column', 'part'), 'Ratio': ('row',),
         'Recover': ('index', 'entry', 'part')}
Named = Union[list[Column], list[Row]]


def not_zero(word: str, named: Named, values: list[Number]) -> list[str]:
    """A line for each column or row whose number is not 0."""
    return ['  %s %s = %s' % (word, it.name, value) for it, value in zip(named, values) if value]


def bound_line(program: Program, answer: Answer) -> str:
    """The bound that the duals prove, or the number of the step that does not fit."""
    try:
        return '  bound %s' % dual_bound(program, answer.duals, answer.status == 'Optimal', Sum())
    except CheckStep as check:
        return '  bound not shown, Check part %d' % check.number


def step_line(step: Step) -> str:
    """The name of a step: `Standard row 1 column 2 part 0`; the first number of all others follows
    the kind.
    """
    words = WORDS[step.kind] if step.kind == 'Standard' else ('',) + WORDS[step.kind]
    return ' '.join(['  step', step.kind] + ['%s %d' % pair if pair[0] else str(pair[1]) for pair in zip(words, step.numbers)])


def proof_lines(program: Program, answer: Answer) -> list[str]:
    """The lines from `PROOF` on. What is not listed is 0."""
    head = ['PROOF ' + answer.status]
    columns, rows = program.columns, program.rows
    if answer.status == 'Optimal':
        return (head + not_zero('level', columns, answer.levels) + not_zero('marginal', rows, answer.duals)
                + not_zero('marginal', columns, answer.reduced) + [bound_line(program, answer)])
    if answer.crossed is not None:
        column = columns[answer.crossed]
        return head + ['  crossed %s %s %s' % (column.name, column.lower, column.upper)]
    if answer.status == 'Infeasible':
        return head + not_zero('row', rows, answer.duals) + [bound_line(program, answer)]
    if answer.status == 'Unbounded':
        return head + not_zero('point', columns, answer.levels) + not_zero('ray', columns, answer.ray)
    if answer.status == 'Interrupted':
        phase = '  phase %d pivots %d' % (answer.phase, len(answer.pivots))
        return head + [phase] + not_zero('point', columns, answer.levels)
    return head + [step_line(answer.step)]
