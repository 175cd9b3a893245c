"""Declared names (docs/LANGUAGE.md, "Declarations", "alias", "Sets that are assigned").

An alias is the very symbol of its set, so two names are one set where their symbols are one object.
"""
from dataclasses import dataclass, field
from itertools import chain, product
from typing import Iterable, Iterator, Optional

from reference.extended import Value
from reference.tree import (Alias, Assignment, Call, Chain, Declaration, Expression, Fold, Guarded, Item, Loop, Models, Negative,
                            Reference, Statement)

MOST_POSITIONS = 10
MOST_ELEMENTS = 1_048_576               # of one name's lists

Element = tuple[int, ...]


@dataclass(eq=False)
class Symbol:
    """What a name was declared as.

    A position of the domain is a set's symbol, None for any label, or `NO_SET` where no set of one
    dimension was declared there.
    """
    name: int
    # Set, parameter, variable, equation, model.
    kind: str
    domain: tuple[Optional['Symbol'], ...] = ()
    type: str = 'free'                                              # of a variable
    data: dict[Element, Optional[Value]] = field(default_factory=dict)
    # Those of a set's data, of one dimension.
    labels: set[int] = field(default_factory=set)
    equations: list[int] = field(default_factory=list)              # of a model

    @property
    def is_index(self) -> bool:
        """Whether it is a set of one dimension."""
        return self.kind == 'set' and len(self.domain) == 1

    @property
    def is_in_order(self) -> bool:
        """Whether its labels are given in the order of all labels."""
        labels = [element[0] for element in self.data]
        return all(first < second for first, second in zip(labels, labels[1:]))

    def give(self, data: dict[Element, Optional[Value]]) -> None:
        self.data = data
        self.labels = {element[0] for element in data} if self.is_index else set()


NO_SET = Symbol(-1, 'nothing')


def is_below(inner: Symbol, outer: Symbol) -> bool:
    """A set is below itself, below the set of its domain, and below what that one is below."""
    if inner is outer:
        return True
    position = inner.domain[0] if inner.is_index else None
    return position is not None and position is not NO_SET and is_below(position, outer)


def has_variables(e: Expression, symbols: dict[int, Symbol]) -> bool:
    """Whether a variable occurs in a side of an equation, outside of conditions, relations,
    operands of logic and lags.
    """
    if isinstance(e, Reference):
        return e.name in symbols and symbols[e.name].kind == 'variable' and not e.suffix
    if isinstance(e, Chain):
        return e.level in ('sum', 'product', 'power') and any(has_variables(part.operand, symbols) for part in e.parts)
    if isinstance(e, (Negative, Guarded)):
        return has_variables(e.operand, symbols)
    if isinstance(e, Fold):
        return has_variables(e.body, symbols)
    return isinstance(e, Call) and any(has_variables(argument, symbols) for argument in e.arguments)


def elements_of(item: Item) -> Iterator[Element]:
    """The elements of an item of a list."""
    return product(*item.parts)


def combined(sets: Iterable[Iterable[Element]]) -> Iterator[Element]:
    """The elements that have one element of each set, in order."""
    return (tuple(chain.from_iterable(parts)) for parts in product(*sets))


def size_of(item: Item) -> int:
    size = 1
    for part in item.parts:
        size *= len(part)
    return size


def assignments(statements: Iterable[Statement]) -> Iterator[Assignment]:
    """All assignments, those in loops too."""
    for statement in statements:
        if isinstance(statement, Assignment):
            yield statement
        elif isinstance(statement, Loop):
            yield from assignments(statement.body)


def dynamic_sets(statements: list[Statement], assigned_in: Iterable[Statement]) -> set[int]:
    """The sets that some of the statements assign, by the names that declare them; an alias counts
    as its set.
    """
    sets: dict[int, Optional[int]] = {}
    for statement in statements:
        if isinstance(statement, Declaration):
            for declared in statement.declared:
                sets.setdefault(declared.named.name, declared.named.name if statement.kind == 'set' else None)
        elif isinstance(statement, Models):
            for model in statement.models:
                sets.setdefault(model.named.name, None)
        elif isinstance(statement, Alias):
            first, second = statement.first.name, statement.second.name
            sets[first], sets[second] = aliased(sets, first, second), aliased(sets, second, first)
    return {sets[it.target.name] for it in assignments(assigned_in) if sets.get(it.target.name) is not None}


def aliased(sets: dict[int, Optional[int]], name: int, other: int) -> Optional[int]:
    """The set that a name of an alias means: its own, that of the other name, or another one."""
    if name in sets:
        return sets[name]
    return sets[other] if sets.get(other) is not None else name
