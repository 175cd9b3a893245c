"""The lines of a listing (docs/LISTING.md). Lines are without their line feeds."""
from typing import Iterable, Optional, Union

from reference.checks import CompileError
from reference.exact import Number
from reference.extended import Value, shown
from reference.program import Answer, Program, Row
from reference.proof import proof_lines
from reference.rows import Generated
from reference.source import SourceFault, split_lines
from reference.state import State
from reference.symbols import Element, Symbol, combined
from reference.texts import rounded
from reference.tree import Shown, Solve
from reference.values import Stop, checked_size

MODEL_STATUS = {1: 'Optimal', 3: 'Unbounded', 4: 'Infeasible', 6: 'Intermediate Infeasible', 7: 'Intermediate Nonoptimal',
                13: 'Error No Solution'}
SOLVER_STATUS = {1: 'Normal Completion', 2: 'Iteration Interrupt', 4: 'Terminated By Solver'}
BLOCK_HEAD = 'LOWER LEVEL UPPER MARGINAL'


def echo(source: str, first: int = 1) -> list[str]:
    """Every line of the source with its number, right in 6 places, and two blanks."""
    return ['%6d  %s' % (number, line) for number, line in enumerate(split_lines(source), first)]


def error_line(it: Union[SourceFault, CompileError, Stop]) -> str:
    return '*** %s error %d %s at line %d column %d' % (type(it.code).__name__, it.code, it.code.name, it.at.line, it.at.column)


def execution_error(stop: Stop, state: State) -> str:
    """The fault with its place, the controlled sets there with their labels, and the count."""
    text = error_line(stop)
    if stop.binding:
        text += ' with ' + ','.join('%s=%s' % (state.name_text(name), state.label_text((label,))) for name, label in stop.binding.items())
    return text if stop.count is None else '%s count %d' % (text, stop.count)


def last_line(status: int, solves: int) -> str:
    return 'END status %d solves %d' % (status, solves)


# ---- displays
def displayed(state: State, items: Iterable[Shown], line: int, binding: dict[int, int]) -> list[str]:
    """The lines of the items of a display or an abort."""
    lines: list[str] = []
    for item in items:
        if item.named is None:
            lines.append('---- %d %s' % (line, item.text))
        else:
            lines += symbol_lines(state, item, line, binding)
    return lines


def symbol_lines(state: State, item: Shown, line: int, binding: dict[int, int]) -> list[str]:
    symbol = state.symbols[item.named.name]
    name = state.name_text(item.named.name) + ('.' + item.suffix if item.suffix else '')
    if symbol.kind == 'set':
        members = ['  ' + state.label_text(element) for element in state.member_list(symbol)]
        return ['---- %d SET %s' % (line, name)] + (members or ['  (empty)'])
    decimals = state.settings.decimals
    if not symbol.domain:
        kind = symbol.kind.upper() if symbol.kind in ('variable', 'equation') else 'SCALAR'
        return ['---- %d %s %s = %s' % (line, kind, name, shown(scalar_value(state, symbol, item.suffix), decimals))]
    entries = [(state.label_text(element), value) for element, value in entries_of(state, symbol, item, binding) if value != 0]
    width = max((len(labels) for labels, _ in entries), default=0)
    lines = ['  %s %14s' % (labels.ljust(width), shown(value, decimals)) for labels, value in entries]
    return ['---- %d %s %s' % (line, symbol.kind.upper(), name)] + (lines or ['  (all zero)'])


def scalar_value(state: State, symbol: Symbol, suffix: str) -> Value:
    """The value of a symbol without indices."""
    if symbol.kind == 'parameter':
        return state.value(symbol.name, ())
    if symbol.kind == 'model':
        return state.statuses[symbol.name][suffix == 'solvestat']
    return getattr(state.entry(symbol, ()), suffix)


def entries_of(state: State, symbol: Symbol, item: Shown, binding: dict[int, int]) -> Iterable[tuple[Element, Value]]:
    """The entries of a symbol with indices. Bounds are looked at over all elements of the domain.
    """
    if symbol.kind == 'parameter':
        return sorted(state.values[symbol.name].items(), key=lambda entry: entry[0])
    if item.suffix in ('l', 'm'):
        return [(element, getattr(entry, item.suffix)) for element, entry in sorted(state.entries[symbol.name].items())]
    every = [(label,) for label in range(len(state.tree.labels.texts))]
    positions = [every if position is None else state.member_list(position) for position in symbol.domain]
    checked_size(map(len, positions), item.named.at, binding)
    return ((element, getattr(state.entry(symbol, element), item.suffix)) for element in combined(positions))


# ---- solves
def solve_lines(state: State, s: Solve, made: Generated, answer: Answer) -> list[str]:
    """What a solve shows; the state is that after it."""
    return program_lines(state, s, made) + answer_lines(state, s, made, answer)


def program_lines(state: State, s: Solve, made: Generated) -> list[str]:
    """The linear program: its rows, its columns, and how many there are."""
    direction = 'maximizing' if s.is_maximizing else 'minimizing'
    model, objective = state.name_text(s.model.name), state.name_text(s.objective.name)
    lines = ['---- %d SOLVE %s %s %s' % (s.at.line, model, direction, objective)]
    if state.settings.limrow:
        lines += row_lines(state, s, made)
    if state.settings.limcol:
        lines += column_lines(state, made)
    rows, columns = made.program.rows, made.program.columns
    return lines + ['ROWS %d COLUMNS %d NONZEROS %d' % (len(rows), len(columns), sum(len(row.coefficients) for row in rows))]


def answer_lines(state: State, s: Solve, made: Generated, answer: Answer) -> list[str]:
    """The answer: its statuses, its levels, and its proof."""
    model_status, solver_status = answer.statuses
    objective = state.symbols[s.objective.name]
    lines = ['SOLVER %s PIVOTS %d LIMIT %d' % (state.settings.lp, len(answer.pivots), state.settings.iterlim),
             'SOLVER STATUS %d %s' % (solver_status, SOLVER_STATUS[solver_status]),
             'MODEL STATUS %d %s' % (model_status, MODEL_STATUS[model_status]),
             'OBJECTIVE ' + rounded(state.entry(objective, ()).l)]
    if state.settings.solprint and answer.has_point:
        lines += level_lines(state, s, made, answer)
    return lines + proof_lines(made.program, answer)


def row_lines(state: State, s: Solve, made: Generated) -> list[str]:
    lines = []
    for name in state.symbols[s.model.name].equations:
        rows = [row for row, key in zip(made.program.rows, made.row_keys) if key[0] == name]
        limit = state.settings.limrow
        lines.append('EQUATION ' + state.name_text(name))
        lines += [row_line(row, made.program) for row in rows[:limit]]
        if not rows:
            lines.append(' (no rows)')
        elif len(rows) > limit:
            lines.append(' (%d more rows)' % (len(rows) - limit))
    return lines


def row_line(row: Row, program: Program) -> str:
    """` element.. TERMS =S= right`; a term has its sign, also where its magnitude is shown as zero.
    """
    terms = ['%s %s*%s' % ('-' if number < 0 else '+', rounded(abs(number)), program.columns[place].name)
             for place, number in row.coefficients.items()]
    return ' %s.. %s =%s= %s' % (row.name, ' '.join(terms) or '0', row.sense, rounded(row.right))


def column_lines(state: State, made: Generated) -> list[str]:
    entries: list[list[str]] = [[] for _ in made.program.columns]
    for row in made.program.rows:
        for place, number in row.coefficients.items():
            entries[place].append('  %s %s' % (rounded(number), row.name))
    lines, limit = [], state.settings.limcol
    for name in dict.fromkeys(key[0] for key in made.column_keys):
        places = [place for place, key in enumerate(made.column_keys) if key[0] == name]
        lines.append('VARIABLE ' + state.name_text(name))
        for place in places[:limit]:
            column = made.program.columns[place]
            lines.append(' %s lower %s upper %s' % (column.name, bound(column.lower, '-INF'), bound(column.upper, '+INF')))
            lines += entries[place]
        if len(places) > limit:
            lines.append(' (%d more columns)' % (len(places) - limit))
    return lines


def bound(value: Optional[Number], missing: str) -> str:
    return missing if value is None else rounded(value)


def level_lines(state: State, s: Solve, made: Generated, answer: Answer) -> list[str]:
    """Levels and marginals in blocks: the equations that have rows, and then the variables."""
    program = made.program
    duals = answer.duals or [0] * len(program.rows)
    reduced = answer.reduced or [0] * len(program.columns)
    rows = [(row.name, row.right if row.sense in 'EG' else None, level, row.right if row.sense in 'EL' else None, dual, '')
            for row, level, dual in zip(program.rows, answer.row_levels, duals)]
    columns = [(it.name, it.lower, level, it.upper, cost, mark(program, answer, place))
               for place, (it, level, cost) in enumerate(zip(program.columns, answer.levels, reduced))]
    lines = []
    for name in state.symbols[s.model.name].equations:
        lines += block('EQU', state.name_text(name), [row for row, key in zip(rows, made.row_keys) if key[0] == name])
    for name in dict.fromkeys(key[0] for key in made.column_keys):
        lines += block('VAR', state.name_text(name), [it for it, key in zip(columns, made.column_keys) if key[0] == name])
    return lines


def mark(program: Program, answer: Answer, place: int) -> str:
    """What a column's line ends with: that the ray moves it, or that the objective is not yet the
    best.
    """
    if answer.status == 'Unbounded' and answer.ray[place]:
        return ' UNBND'
    return ' NOPT' if answer.status == 'Interrupted' and place == program.objective else ''


def block(word: str, name: str, lines: list[tuple]) -> list[str]:
    """A line for each element; none at all where there is none."""
    if not lines:
        return []
    width = max(len(line[0]) for line in lines)
    return ['%s %s %s' % (word, name, BLOCK_HEAD)] + [
        '  %s %12s %12s %12s %12s%s' % (element.ljust(width), cell(lower, '-INF'), cell(level, ''), cell(upper, '+INF'), cell(marginal, ''), end)
        for element, lower, level, upper, marginal, end in lines]


def cell(value: Optional[Number], missing: str) -> str:
    """A number with three decimals, and a dot for 0."""
    return missing if value is None else '.' if value == 0 else rounded(value)
