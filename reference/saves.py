"""Saved states (docs/SAVES.md; docs/internals/DESIGN.md, "States that may be restored").

A state has one text. So a text is read without care, what is read is looked at, and then it is
written again: where that is not the text, it is no save.
"""
import re
from dataclasses import dataclass
from typing import Iterator, Optional, TypeVar

from reference import errors
from reference.checks import MOST_OF_OPTION, Checks
from reference.choice import SOLVERS
from reference.exact import number_of
from reference.extended import INF, MINUS_INF, NA, Value, exactly
from reference.run import is_possible
from reference.source import MOST_BYTES, Place, SourceFault, read_source
from reference.state import Entry, Settings, State, first_entry, first_state
from reference.statements import read_program
from reference.symbols import Element, Symbol, dynamic_sets

MOST_SAVED = 67_108_864
HEAD = re.compile(r'gams25 save 1\nsource ([0-9]{1,8})\n')
SOLVER_NAME = re.compile(r'[A-Za-z][A-Za-z0-9_]{0,62}')
COUNT = re.compile(r'[0-9]{1,10}')
# The solver status that goes with a model status.
SOLVER_STATUS_OF = {0: 0, 1: 1, 3: 1, 4: 1, 6: 2, 7: 2, 13: 4}

Given = TypeVar('Given')


class NoSave(Exception):
    """The text is not that of a saved state."""


@dataclass
class Saved:
    """A source, and the state in which its run ended."""
    source: str
    state: State

    @property
    def first_line(self) -> int:
        """The number of the file's first line in the joint source."""
        return self.source.count('\n') + 3

    def put_into(self, state: State) -> None:
        """Puts the saved state over what the joint program declares."""
        state.members.update(self.state.members)
        state.values.update(self.state.values)
        state.entries.update(self.state.entries)
        state.statuses.update(self.state.statuses)
        state.settings = self.state.settings


def joint_source(saved: Optional[Saved], file: str) -> str:
    """What is read, checked and run: the saved source, a line end, a line with `;`, and the file;
    without a save the file alone.
    """
    return saved.source + '\n;\n' + file if saved else file


# ---- writing
def save_text(source: str, state: State) -> str:
    """The text of a state over its source."""
    it = state.settings
    lines = ['gams25 save 1', 'source %d' % len(source), source,
             'settings %d %d %d %d %s %s' % (it.limrow, it.limcol, it.iterlim, it.decimals, 'on' if it.solprint else 'off', it.lp)]
    for name in sorted(state.symbols):
        lines += part_lines(state, name)
    return '\n'.join(lines + ['end']) + '\n'


def part_lines(state: State, name: int) -> list[str]:
    symbol, text = state.symbols[name], state.name_text(name)
    if symbol.name != name:
        return ['alias ' + text]
    if symbol.kind == 'model':
        return ['model %s %d %d' % ((text,) + state.statuses[name])]
    if symbol.kind == 'set':
        lines = [tuple_text(element) + '.' for element in state.member_list(symbol)]
    elif symbol.kind == 'parameter':
        lines = [tuple_text(element) + exactly(value) for element, value in sorted(state.values[name].items(), key=lambda it: it[0])]
    else:
        lines = [tuple_text(element) + ' '.join(map(exactly, entry)) for element, entry in sorted(state.entries[name].items())]
    return ['%s %s %d' % (symbol.kind, text, len(lines))] + lines


def tuple_text(element: Element) -> str:
    return ''.join('%d ' % label for label in element)


# ---- reading
def restore(text: str) -> Saved:
    """The saved state of a text; else a `SourceFault` with 42, 41 or 43, which are tried in this
    order.
    """
    if len(text) > MOST_SAVED:
        raise SourceFault(errors.Source.SaveTooLong, Place(1, 1))
    try:
        saved = read_save(text)
    except (NoSave, SourceFault):
        raise SourceFault(errors.Source.SaveShape, Place(1, 1)) from None
    if saved.state.settings.lp.lower() not in SOLVERS:
        raise SourceFault(errors.Source.SaveSolver, Place(1, 1))
    saved.state.settings.lp = saved.state.settings.lp.lower()
    return saved


def read_save(text: str) -> Saved:
    head = HEAD.match(text)
    if head is None:
        raise NoSave
    end = head.end() + int(head[1])
    source = text[head.end():end]
    state = empty_state(source)
    lines = iter(text[end:].split('\n'))
    if next(lines):
        raise NoSave
    try:
        read_settings(state.settings, next(lines).split(' '))
        dynamic = dynamic_sets(state.tree.statements, state.tree.statements)
        for name in sorted(state.symbols):
            read_part(state, name, lines, dynamic)
    except (StopIteration, ValueError, RuntimeError):
        raise NoSave from None
    if save_text(source, state) != text:
        raise NoSave
    return Saved(source, state)


def empty_state(source: str) -> State:
    """The state of a source in which nothing is given. The source has no errors, whatever solvers
    there are.
    """
    if len(source) > MOST_BYTES:
        raise NoSave
    tree = read_program(read_source(source))
    checks = Checks(tree, None)
    if checks.all_errors():
        raise NoSave
    return first_state(tree, checks.symbols)


def count(text: str) -> int:
    if not COUNT.fullmatch(text):
        raise NoSave
    return int(text)


def read_settings(settings: Settings, words: list[str]) -> None:
    if len(words) != 7 or words[0] != 'settings' or words[5] not in ('on', 'off') or not SOLVER_NAME.fullmatch(words[6]):
        raise NoSave
    for word, value in zip(('limrow', 'limcol', 'iterlim', 'decimals'), words[1:5]):
        if count(value) > MOST_OF_OPTION[word]:
            raise NoSave
        setattr(settings, word, count(value))
    settings.solprint, settings.lp = words[5] == 'on', words[6]


def read_part(state: State, name: int, lines: Iterator[str], dynamic: set[int]) -> None:
    """Reads the part of a name into the state."""
    symbol, words = state.symbols[name], next(lines).split(' ')
    if symbol.name != name:
        return
    if symbol.kind == 'model':
        read_statuses(state, name, words)
        return
    if len(words) != 3:
        raise NoSave
    rows = [read_row(state, symbol, next(lines).split(' ')) for _ in range(count(words[2]))]
    if symbol.kind == 'set':
        read_members(state, symbol, rows, dynamic)
    elif symbol.kind == 'parameter':
        state.values[name] = {element: other_than(0, read_value(*rest)) for element, rest in rows}
    else:
        state.entries[name] = {element: other_than(first_entry(symbol), read_entry(rest)) for element, rest in rows}


def other_than(absent: Given, given: Given) -> Given:
    """What is given; it differs from the absent entry where nothing is given."""
    if given == absent:
        raise NoSave
    return given


def read_statuses(state: State, name: int, words: list[str]) -> None:
    model, solver = (count(word) for word in words[2:])
    if SOLVER_STATUS_OF.get(model) != solver:
        raise NoSave
    state.statuses[name] = (model, solver)


def read_row(state: State, symbol: Symbol, words: list[str]) -> tuple[Element, list[str]]:
    """The element of a line, whose labels are those of its positions, and what follows."""
    arity = len(symbol.domain)
    element = tuple(count(word) for word in words[:arity])
    for label, position in zip(element, symbol.domain):
        if label >= len(state.tree.labels.texts) or position is not None and label not in position.labels:
            raise NoSave
    if len(words) - arity != {'set': 1, 'parameter': 1}.get(symbol.kind, 4):
        raise NoSave
    return element, words[arity:]


def read_members(state: State, symbol: Symbol, rows: list[tuple[Element, list[str]]], dynamic: set[int]) -> None:
    """A set that the source does not assign has the members of its data."""
    members = {element for element, _ in rows}
    if symbol.name not in dynamic and members != set(symbol.data):
        raise NoSave
    state.members[symbol.name] = members


def read_value(text: str) -> Value:
    value = {'+INF': INF, '-INF': MINUS_INF, 'NA': NA}.get(text, number_of(text))
    if value is None:
        raise NoSave
    return value


def read_entry(words: list[str]) -> Entry:
    entry = Entry(*map(read_value, words))
    if not all(is_possible(suffix, value) for suffix, value in zip(Entry._fields, entry)):
        raise NoSave
    return entry
