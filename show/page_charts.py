"""Which charts a symbol gets: bars, lines over an ordered set, or a heat map."""
import re
from fractions import Fraction
from typing import Dict, List, Optional, Sequence, Tuple

from .charts import MOST_SERIES, bars, heat, lines
from .exact import number_of
from .labels import Labels
from .orders import Key, label_orders
from .symbols import Symbol
from .table import domain_of
from .model import Listing

NUMBERED = re.compile(r'(.*?)(\d+)\Z')
LEAST_ORDERED = 4               # labels from which an index is drawn as a line
MOST_HEAT = 60                  # rows and columns of a heat map

Values = Dict[Key, Fraction]


def values_of(symbol: Symbol, figure: str, exact: Dict[str, Fraction]) -> Values:
    """The numbers of a symbol by labels, exact where they are known; infinities and NA are left
    out."""
    found: Values = {}
    for cell in symbol.cells:
        text = getattr(cell.figures, figure)
        value = exact.get(cell.element)
        if value is None and text:
            value = number_of(text)
        if value is not None:
            found[cell.reading.labels if cell.reading.is_certain else (cell.element,)] = value
    return found


def is_counted_on(labels: Sequence[str]) -> bool:
    """Whether labels are one text with numbers that rise."""
    found = [NUMBERED.match(label) for label in labels]
    parts = [(it[1], int(it[2])) for it in found if it]
    return len(parts) == len(labels) and len({text for text, _ in parts}) == 1 and \
        all(a[1] < b[1] for a, b in zip(parts, parts[1:]))


def uses_order(listing: Listing, name: str) -> bool:
    """Whether the source uses the order of a set: by a lag, or by ord."""
    pattern = re.compile(r'\bord\s*\(\s*%s\s*\)|\b%s\s*(\+\+|--|\+|-)\s*(\d|"|\()' % (re.escape(name), re.escape(name)), re.I)
    return any(pattern.search(raw.decode('latin-1')) for raw in listing.echo)


def ordered_position(listing: Listing, symbol: Symbol, orders: List[List[str]]) -> Optional[int]:
    """The index that is drawn along a line; the last one of several."""
    domain = domain_of(listing, symbol.name, len(orders))
    for position in reversed(range(len(orders))):
        labels = orders[position]
        named = domain[position] if domain else ''
        if len(labels) >= LEAST_ORDERED and (is_counted_on(labels) or (named not in ('', '*') and uses_order(listing, named))):
            return position
    return None


def filled(symbol: Symbol, values: Values, orders: List[List[str]]) -> Values:
    """The numbers with the zeros that a display leaves out."""
    if len(symbol.figures) > 1 or len(orders) != 2:
        return values
    shown = {cell.reading.labels for cell in symbol.cells}
    zeros = {(a, b): Fraction(0) for a in orders[0] for b in orders[1] if (a, b) not in shown}
    return {**values, **zeros}


def charts_of(title: str, values: Values, orders: List[List[str]], ordered: Optional[int], kind: str, full: Values) -> List[str]:
    """The charts of one number of a symbol; lines are drawn over the full numbers."""
    if len(orders) == 1:
        items = [(key[0], value) for key, value in values.items()]
        if ordered == 0:
            return [lines(title, orders[0], [('', [values.get((it,)) for it in orders[0]])], kind)]
        return [bars(title, items, kind)]
    if len(orders) == 2:
        found: List[str] = []
        if ordered is not None:
            across, along = orders[1 - ordered], orders[ordered]
            if len(across) <= MOST_SERIES:
                rows = [(name, [full.get((name, it) if ordered == 1 else (it, name)) for it in along]) for name in across]
                found.append(lines(title, along, [it for it in rows if any(value is not None for value in it[1])]))
        if max(len(it) for it in orders) <= MOST_HEAT:
            cells: Dict[Tuple[str, str], Fraction] = {(key[0], key[1]): value for key, value in values.items()}
            found.append(heat(title, orders[0], orders[1], cells, kind))
        return found or [bars(title, [(' '.join(key), value) for key, value in values.items()], kind)]
    items = [(', '.join(key), value) for key, value in values.items() if value]
    return [bars(title, items, kind)] if items else []


def charts_for(listing: Listing, labels: Labels, symbol: Symbol, figure: str, exact: Dict[str, Fraction]) -> List[str]:
    """The charts of a symbol's levels or marginals; none where all are 0 or it has no index."""
    values = values_of(symbol, figure, exact)
    keys = list(values)
    if not keys or not keys[0] or not any(values.values()) or len({len(key) for key in keys}) != 1:
        return []
    orders = label_orders(keys, labels.place_of)
    title = '%s, %s' % (symbol.name, figure) if '.' not in symbol.name and len(symbol.figures) > 1 else symbol.name
    kind = 'marginal' if figure == 'marginal' else 'level'
    return charts_of(title, values, orders, ordered_position(listing, symbol, orders), kind, filled(symbol, values, orders))
