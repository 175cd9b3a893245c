"""What a run knows at a point (docs/LANGUAGE.md, "set", "scalar, parameter", "variable", "model",
"option").
"""
from dataclasses import dataclass, field
from typing import NamedTuple

from reference.extended import INF, MINUS_INF, Value
from reference.symbols import Element, Symbol
from reference.tree import Tree


class Entry(NamedTuple):
    """The bounds, the level and the marginal of an element of a variable or an equation."""
    lo: Value
    up: Value
    l: Value
    m: Value


@dataclass
class Settings:
    """The values of options; the solver is named."""
    limrow: int = 3
    limcol: int = 3
    iterlim: int = 1000
    decimals: int = 3
    solprint: bool = True
    lp: str = 'bland'


def first_entry(symbol: Symbol) -> Entry:
    """What an element has before anything is put: the bounds of its type, and 0."""
    lower = 0 if symbol.kind == 'variable' and symbol.type == 'positive' else MINUS_INF
    upper = 0 if symbol.kind == 'variable' and symbol.type == 'negative' else INF
    return Entry(lower, upper, 0, 0)


@dataclass
class State:
    """Members of sets, values of parameters, entries of variables and equations, and statuses of
    models, each by its name.

    Values that are 0 and entries that are as they were at first are not kept. `in_order` has the
    members of a set in the order of labels, and `positions` the place of each label in a set of one
    dimension; both are made when they are needed.
    """
    tree: Tree
    symbols: dict[int, Symbol]
    members: dict[int, set[Element]] = field(default_factory=dict)
    values: dict[int, dict[Element, Value]] = field(default_factory=dict)
    entries: dict[int, dict[Element, Entry]] = field(default_factory=dict)
    statuses: dict[int, tuple[int, int]] = field(default_factory=dict)
    settings: Settings = field(default_factory=Settings)
    in_order: dict[int, list[Element]] = field(default_factory=dict)
    positions: dict[int, dict[int, int]] = field(default_factory=dict)

    def member_list(self, symbol: Symbol) -> list[Element]:
        """The members of a set in the order of labels."""
        if symbol.name not in self.in_order:
            self.in_order[symbol.name] = sorted(self.members[symbol.name])
        return self.in_order[symbol.name]

    def position(self, symbol: Symbol, label: int) -> int:
        """The place of a label in a set of one dimension, from 0."""
        if symbol.name not in self.positions:
            self.positions[symbol.name] = {element[0]: place for place, element in enumerate(self.member_list(symbol))}
        return self.positions[symbol.name][label]

    def put_member(self, symbol: Symbol, element: Element, is_member: bool) -> None:
        (set.add if is_member else set.discard)(self.members[symbol.name], element)
        self.in_order.pop(symbol.name, None)
        self.positions.pop(symbol.name, None)

    def value(self, name: int, element: Element) -> Value:
        return self.values[name].get(element, 0)

    def put_value(self, name: int, element: Element, value: Value) -> None:
        if value == 0:
            self.values[name].pop(element, None)
        else:
            self.values[name][element] = value

    def entry(self, symbol: Symbol, element: Element) -> Entry:
        return self.entries[symbol.name].get(element) or first_entry(symbol)

    def put_entry(self, symbol: Symbol, element: Element, entry: Entry) -> None:
        if entry == first_entry(symbol):
            self.entries[symbol.name].pop(element, None)
        else:
            self.entries[symbol.name][element] = entry

    def name_text(self, name: int) -> str:
        return self.tree.names.texts[name]

    def label_text(self, element: Element) -> str:
        """The labels of an element with dots between them."""
        return '.'.join(self.tree.labels.texts[label] for label in element)

    def element_text(self, name: int, element: Element) -> str:
        """An element of a name, as `x(a,b)`."""
        labels = ','.join(self.tree.labels.texts[label] for label in element)
        return self.name_text(name) + ('(%s)' % labels if element else '')


def first_state(tree: Tree, symbols: dict[int, Symbol]) -> State:
    """All data of declarations, and nothing else given."""
    state = State(tree, symbols)
    for name, symbol in symbols.items():
        if symbol.name != name:
            continue
        if symbol.kind == 'set':
            state.members[name] = set(symbol.data)
        elif symbol.kind == 'parameter':
            state.values[name] = {element: value for element, value in symbol.data.items() if value != 0}
        elif symbol.kind == 'model':
            state.statuses[name] = (0, 0)
        else:
            state.entries[name] = {}
    return state
