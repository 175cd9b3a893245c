"""The linear program of a solve (docs/LANGUAGE.md, "solve"; docs/internals/SOLVER.md, "From a model
to a linear program").
"""
from dataclasses import dataclass
from typing import Optional

from reference import errors
from reference.exact import Number
from reference.extended import Special
from reference.forms import Form, Forms, Key, minus
from reference.program import Column, Program, Row
from reference.state import State
from reference.symbols import Symbol
from reference.tree import Control, Definition, Index, Solve
from reference.values import Stop

MOST_ROWS, MOST_COLUMNS = 1500, 3000


@dataclass
class Generated:
    """A linear program with the elements that its rows and columns are."""
    program: Program
    row_keys: list[Key]
    column_keys: list[Key]


def index_sets(indices: tuple[Index, ...]) -> tuple[int, ...]:
    """The sets among indices, without repetition, in their order."""
    return tuple(dict.fromkeys(index.name for index in indices if index.label is None))


def rows_of(definition: Definition, forms: Forms) -> list[tuple[Key, Form]]:
    """An equation has a row for each element of its head's sets for which the condition holds: its
    left side less its right side.
    """
    rows = []
    control = Control(index_sets(definition.indices), definition.condition)
    for binding in forms.domain(control, definition.at, {}):
        left, right = forms.form(definition.left, binding), forms.form(definition.right, binding)
        form = forms.step(minus, (left, right), definition.right.start, binding)
        rows.append(((definition.equation.name, forms.element(definition.indices, binding)), form))
    return rows


def number_or_none(value: object) -> Optional[Number]:
    return None if isinstance(value, Special) else value


def column_of(state: State, key: Key) -> Column:
    symbol: Symbol = state.symbols[key[0]]
    entry = state.entry(symbol, key[1])
    return Column(state.element_text(*key), number_or_none(entry.lo), number_or_none(entry.up))


def checked_sizes(program: Program, s: Solve) -> None:
    """The standard form has at most 1,500 rows and 3,000 columns."""
    rows = sum({'L': 1, 'G': 1, 'E': 2, 'N': 0}[row.sense] for row in program.rows)
    rows += sum(it.lower is not None and it.upper is not None for it in program.columns)
    columns = sum(2 if it.lower is None and it.upper is None else 1 for it in program.columns)
    if rows > MOST_ROWS:
        raise Stop(errors.Execution.TooManyRows, s.at, {}, rows)
    if columns > MOST_COLUMNS:
        raise Stop(errors.Execution.TooManyColumns, s.at, {}, columns)


def generate(state: State, definitions: dict[int, Definition], s: Solve) -> Generated:
    """The program that a solve means in a state."""
    forms = Forms(state)
    rows = [(key, form, definitions[name].sense) for name in state.symbols[s.model.name].equations
            for key, form in rows_of(definitions[name], forms)]
    objective: Key = (s.objective.name, ())
    keys = sorted({objective}.union(*(form.numbers for _, form, _ in rows)))
    places = {key: place for place, key in enumerate(keys)}
    made = [Row(state.element_text(*key), sense, {places[it]: form.numbers[it] for it in sorted(form.numbers)}, -form.constant)
            for key, form, sense in rows]
    program = Program([column_of(state, key) for key in keys], made, places[objective], s.is_maximizing)
    checked_sizes(program, s)
    return Generated(program, [key for key, _, _ in rows], keys)
