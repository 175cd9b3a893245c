"""Whether an answer proves what it says (docs/LISTING.md, "Proofs, and how to check them by hand").

Each function gives the first reason why it does not, or None. Sums are exact and without a limit;
nothing is solved.
"""
from typing import Iterable, Optional

from reference.certificate import ExactSum, NoBound, dual_bound, reduced_costs
from reference.exact import Number
from reference.program import Answer, Program, Row

Reason = Optional[str]


def row_sum(row: Row, point: list[Number]) -> Number:
    return sum(number * point[place] for place, number in row.coefficients.items())


def row_fault(row: Row, total: Number, right: Number) -> Reason:
    """Why a row's sum is not equal to, at most, or at least a number."""
    is_right = {'E': total == right, 'L': total <= right, 'G': total >= right, 'N': True}[row.sense]
    return None if is_right else 'the sum of row %s is %s, and %s is needed' % (
        row.name, total, {'E': '%s', 'L': 'at most %s', 'G': 'at least %s'}[row.sense] % right)


def point_fault(program: Program, point: list[Number]) -> Reason:
    """Why a point is not possible."""
    for column, level in zip(program.columns, point):
        if column.lower is not None and level < column.lower or column.upper is not None and level > column.upper:
            return 'the level %s of %s is outside of its bounds' % (level, column.name)
    return first(row_fault(row, row_sum(row, point), row.right) for row in program.rows)


def first(reasons: Iterable[Reason]) -> Reason:
    return next((reason for reason in reasons if reason is not None), None)


def proved_bound(program: Program, duals: list[Number], with_objective: bool) -> tuple[Number, Reason]:
    """The bound that the duals prove, or why they prove none."""
    try:
        return dual_bound(program, duals, with_objective, ExactSum()), None
    except NoBound as fault:
        return 0, str(fault)


def optimal_fault(program: Program, answer: Answer) -> Reason:
    """The levels are possible, the reduced costs are right, the signs are allowed, and the bound is
    reached.
    """
    fault = point_fault(program, answer.levels)
    if fault:
        return fault
    reduced = reduced_costs(program, answer.duals, True, ExactSum())
    for column, right, listed in zip(program.columns, reduced, answer.reduced):
        if right != listed:
            return 'the marginal of %s is %s by those of the rows, and %s is listed' % (column.name, right, listed)
    total, fault = proved_bound(program, answer.duals, True)
    objective = answer.levels[program.objective]
    if not fault and total != objective:
        return 'the marginals prove the bound %s, and the objective is %s' % (total, objective)
    return fault


def infeasible_fault(program: Program, answer: Answer) -> Reason:
    """A column's bounds cross; or the rows, each times its factor, make a sum above 0 that no
    possible point has.
    """
    crossed = next((place for place, it in enumerate(program.columns)
                    if it.lower is not None and it.upper is not None and it.lower > it.upper), None)
    if answer.crossed != crossed:
        return 'the bounds of no column cross' if crossed is None else 'the bounds of %s cross' % program.columns[crossed].name
    if crossed is not None:
        return None
    total, fault = proved_bound(program, answer.duals, False)
    return fault or (None if total > 0 else 'the rows make the bound %s, which is not above 0' % total)


def unbounded_fault(program: Program, answer: Answer) -> Reason:
    """The point is possible, the ray keeps all bounds and rows, and it makes the objective better.
    """
    fault = point_fault(program, answer.levels)
    if fault:
        return fault
    for column, move in zip(program.columns, answer.ray):
        if column.lower is not None and move < 0 or column.upper is not None and move > 0:
            return 'the ray moves %s to its bound' % column.name
    fault = first(row_fault(row, row_sum(row, answer.ray), 0) for row in program.rows)
    move = answer.ray[program.objective]
    is_better = move > 0 if program.maximize else move < 0
    return fault and 'along the ray ' + fault or (None if is_better else 'the ray does not make the objective better')


def interrupted_fault(program: Program, answer: Answer, limit: int) -> Reason:
    """The pivots are as many as the limit allows, and in phase 2 the point is possible."""
    if len(answer.pivots) != limit:
        return 'a solve is interrupted after %d pivots, and %d are listed' % (limit, len(answer.pivots))
    return point_fault(program, answer.levels) if answer.phase == 2 else None


def fault_of(program: Program, answer: Answer, limit: int) -> Reason:
    """Why an answer is false; that it was refused, or interrupted in phase 1, proves nothing and
    has no fault.
    """
    if len(answer.pivots) > limit:
        return '%d pivots are over the limit' % len(answer.pivots)
    if answer.status == 'Interrupted':
        return interrupted_fault(program, answer, limit)
    if answer.status == 'Refused':
        return None
    return {'Optimal': optimal_fault, 'Infeasible': infeasible_fault, 'Unbounded': unbounded_fault}[answer.status](program, answer)
