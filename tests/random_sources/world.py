"""What a source has declared so far: enough to write statements that are right, and some that are
nearly so.
"""
from dataclasses import dataclass, field
from typing import Optional

from tests.random_sources.draw import Draw

Domain = list[Optional[str]]


@dataclass
class Symbol:
    """A declared name. A set has its elements, whether statements assign it, and the set that an
    alias stands for.
    """
    name: str
    kind: str
    domain: Domain = field(default_factory=list)
    elements: list[tuple[str, ...]] = field(default_factory=list)
    is_dynamic: bool = False
    is_ordered: bool = False
    base: str = ''
    type: str = 'free'
    is_defined: bool = False
    short: str = ''         # the range that gives all elements of a set


class World:
    """The symbols in order of declaration, and the labels in order of first appearance."""

    def __init__(self, draw: Draw) -> None:
        self.draw = draw
        self.symbols: dict[str, Symbol] = {}
        self.labels: list[str] = []
        self.order: dict[str, int] = {}
        self.taken: set[str] = set()

    def fresh(self, stem: str) -> str:
        """A name that is not declared: the stem, or the stem and a number."""
        name = stem
        while name in self.taken or name == stem and self.draw.chance(0.3):
            name = '%s%d' % (stem, self.draw.between(1, 9 + 2 * len(self.taken)))
        self.taken.add(name)
        return self.draw.cased(name)

    def enter(self, label: str) -> str:
        """The label, which counts as one of the source from here on."""
        if label.lower() not in self.order:
            self.order[label.lower()] = len(self.labels)
            self.labels.append(label)
        return label

    def add(self, symbol: Symbol) -> Symbol:
        """Declares the symbol."""
        symbol.base = symbol.base or symbol.name
        if symbol.kind == 'set':
            for element in symbol.elements:
                for label in element:
                    self.enter(label)
            places = [self.order[element[0].lower()] for element in symbol.elements if element]
            symbol.is_ordered = len(symbol.domain) == 1 and not symbol.is_dynamic and places == sorted(places)
        self.symbols[symbol.name] = symbol
        return symbol

    def of(self, kind: str) -> list[Symbol]:
        """All symbols of a kind."""
        return [it for it in self.symbols.values() if it.kind == kind]

    def line_sets(self) -> list[Symbol]:
        """The sets of one dimension."""
        return [it for it in self.of('set') if len(it.domain) == 1]

    def domain_sets(self) -> list[Symbol]:
        """The sets that may be a domain: of one dimension, and assigned by no statement."""
        return [it for it in self.line_sets() if not it.is_dynamic and it.elements]

    def is_below(self, name: str, position: Optional[str]) -> bool:
        """Whether a set may be an index where the domain has this position."""
        if position is None:
            return True
        base = self.symbols[name].base
        if base == self.symbols[position].base:
            return True
        domain = self.symbols[base].domain
        return len(domain) == 1 and domain[0] is not None and self.is_below(domain[0], position)

    def labels_at(self, position: Optional[str]) -> list[str]:
        """The labels that may be written at this position."""
        if position is None:
            return self.labels
        return [element[0] for element in self.symbols[self.symbols[position].base].elements]
