"""From a program to its answer (docs/internals/SOLVER.md, "The search").

    solve(program, 'bland', 1000)
"""
from reference.choice import SOLVERS, Rule
from reference.program import Answer, Program
from reference.recovery import recovered
from reference.simplex import Dictionary, first_dictionary, opening_row
from reference.standard import CONSTANT, Refusal, standard


def solve(program: Program, solver: str, iteration_limit: int) -> Answer:
    """The first answer of the solver's rules that is not Refused; where all are, that by Bland's
    rule, or by the solver's one rule.
    """
    refused: dict[str, Answer] = {}
    for rule in SOLVERS[solver]:
        answer = answer_by(program, rule, iteration_limit)
        if answer.status != 'Refused':
            return answer
        refused[rule] = answer
    return refused.get('bland', answer)


def answer_by(program: Program, rule: str, iteration_limit: int) -> Answer:
    """The answer by a rule: bounds first, then the standard form, then the pivots; the first misfit
    refuses.
    """
    for place, column in enumerate(program.columns):
        if column.lower is not None and column.upper is not None and column.lower > column.upper:
            return Answer('Infeasible', crossed=place)
    pivots: list[tuple[int, int]] = []
    try:
        form = standard(program)
        dictionary = first_dictionary(program, form)
        answer = searched(dictionary, Rule(rule, form.all_variables), iteration_limit, pivots)
        recovered(program, form, dictionary, answer)
    except Refusal as refusal:
        answer = Answer('Refused', step=refusal.step)
    answer.pivots = pivots
    return answer


def searched(dictionary: Dictionary, rule: Rule, limit: int, pivots: list[tuple[int, int]]) -> Answer:
    """Pivots the dictionary to an end, without its numbers, and puts the pivots that were taken
    into the list.
    """
    while True:
        entering = rule.entering(dictionary)
        if entering < 0:
            return Answer('Infeasible' if dictionary.phase == 1 else 'Optimal')
        if entering and not dictionary.limiting(entering):
            return Answer('Unbounded', entering=entering)
        if len(pivots) == limit:
            return Answer('Interrupted', phase=dictionary.phase)
        number = len(pivots) + 1
        row = dictionary.leaving(entering, number) if entering else opening_row(dictionary)
        pivot, constant, phase = (entering, dictionary.basis[row]), dictionary.number(row, CONSTANT), dictionary.phase
        dictionary.exchange(entering, row, number)
        rule.after(constant, dictionary.phase != phase)
        pivots.append(pivot)
