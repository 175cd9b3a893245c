"""The run of a program, statement by statement (docs/LANGUAGE.md, "assignment", "Sets that are
assigned", "solve", "display, abort", "loop", "option").
"""
from typing import Iterable

from reference import errors
from reference.extended import INF, MINUS_INF, Special, Value
from reference.listing import displayed, execution_error, solve_lines
from reference.program import Answer, Program
from reference.rows import Generated, generate, index_sets
from reference.solve import solve
from reference.state import State
from reference.symbols import Element, Symbol
from reference.tree import (Abort, Assignment, Control, Definition, Display, Loop, Options, Reference, Setting, Solve, Statement)
from reference.values import Binding, Evaluator, Stop


class Run:
    """Runs statements from a state; `lines` is what they show, and `solved` has the linear programs
    with their answers.
    """

    def __init__(self, state: State) -> None:
        self.state = state
        self.evaluator = Evaluator(state)
        self.definitions = {it.equation.name: it for it in state.tree.statements if isinstance(it, Definition)}
        self.lines: list[str] = []
        self.solved: list[tuple[Program, Answer]] = []

    def all(self, statements: Iterable[Statement]) -> int:
        """The status of the run: 0 where all statements were executed, 3 where a fault stopped
        them.
        """
        try:
            for statement in statements:
                self.statement(statement, {})
        except Stop as stop:
            self.lines.append(execution_error(stop, self.state))
            return 3
        return 0

    def statement(self, s: Statement, binding: Binding) -> None:
        """Declarations, aliases, definitions and models do nothing here."""
        if isinstance(s, Assignment):
            self.assignment(s, binding)
        elif isinstance(s, Display):
            self.lines += displayed(self.state, s.shown, s.at.line, binding)
        elif isinstance(s, Abort):
            self.abort(s, binding)
        elif isinstance(s, Options):
            for setting in s.settings:
                self.set(setting)
        elif isinstance(s, Loop):
            for inside in self.evaluator.domain(s.control, s.at, binding):
                for inner in s.body:
                    self.statement(inner, inside)
        elif isinstance(s, Solve):
            self.solve(s)

    def abort(self, s: Abort, binding: Binding) -> None:
        if self.evaluator.holds(s.condition, binding):
            self.lines += displayed(self.state, s.shown, s.at.line, binding)
            raise Stop(errors.Execution.Aborted, s.at, binding)

    def set(self, setting: Setting) -> None:
        """Options that have no effect change nothing."""
        word, value = setting.word.text, setting.value
        if word == 'solprint':
            self.state.settings.solprint = value == 'on'
        elif word == 'lp':
            self.state.settings.lp = value
        elif hasattr(self.state.settings, word):
            setattr(self.state.settings, word, int(value))

    # ---- assignments
    def assignment(self, s: Assignment, binding: Binding) -> None:
        """All values are computed as things were before, and then put."""
        symbol = self.state.symbols[s.target.name]
        names = tuple(name for name in index_sets(s.target.indices) if name not in binding)
        computed: list[tuple[Element, object]] = []
        for inside in self.evaluator.domain(Control(names, s.condition), s.at, binding):
            element = self.evaluator.element(s.target.indices, inside)
            if element is not None:
                computed.append((element, self.right(s, symbol, inside)))
        for element, value in computed:
            self.put(symbol, s.target, element, value)

    def right(self, s: Assignment, symbol: Symbol, binding: Binding) -> object:
        """The value of the right side; whether it is a member where a set is assigned."""
        if symbol.kind == 'set':
            return self.evaluator.is_member(s.right, binding)
        value = self.evaluator.value(s.right, binding)
        if symbol.kind == 'variable' and not is_possible(s.target.suffix, value):
            raise Stop(errors.Execution.Undefined, s.right.start, binding)
        return value

    def put(self, symbol: Symbol, target: Reference, element: Element, value: object) -> None:
        if symbol.kind == 'set':
            self.state.put_member(symbol, element, bool(value))
        elif symbol.kind == 'parameter':
            self.state.put_value(symbol.name, element, value)
        else:
            entry = self.state.entry(symbol, element)
            changed = {'lo': value, 'up': value, 'l': value} if target.suffix == 'fx' else {target.suffix: value}
            self.state.put_entry(symbol, element, entry._replace(**changed))

    # ---- solves
    def solve(self, s: Solve) -> None:
        made = generate(self.state, self.definitions, s)
        answer = self.answer(s, made)
        self.solved.append((made.program, answer))
        self.state.statuses[s.model.name] = answer.statuses
        if answer.has_point:
            self.put_answer(made, answer)
        self.lines += solve_lines(self.state, s, made, answer)

    def answer(self, s: Solve, made: Generated) -> Answer:
        """The answer of the chosen solver."""
        return solve(made.program, self.state.settings.lp, self.state.settings.iterlim)

    def put_answer(self, made: Generated, answer: Answer) -> None:
        """Levels and marginals of all rows and columns; marginals are 0 where the answer has none.
        """
        for keys, levels, marginals in ((made.column_keys, answer.levels, answer.reduced), (made.row_keys, answer.row_levels, answer.duals)):
            for place, (name, element) in enumerate(keys):
                symbol = self.state.symbols[name]
                marginal = marginals[place] if answer.status == 'Optimal' else 0
                self.state.put_entry(symbol, element, self.state.entry(symbol, element)._replace(l=levels[place], m=marginal))


def is_possible(suffix: str, value: Value) -> bool:
    """A lower bound may be `-inf` and an upper one `inf`; else bounds, levels and marginals are
    numbers.
    """
    return not isinstance(value, Special) or value is {'lo': MINUS_INF, 'up': INF}.get(suffix)
