"""`table`: a symbol as a table with rows and columns by positions of its labels."""
import re
from typing import Any, Dict, Iterator, List, Optional, Sequence, Tuple

from . import events as ev
from .cli import FIGURES, Request, listing_last
from .grid import Grid, Texts
from .labels import PLAIN_HINT, Labels, Reading
from .model import Display, Listing, Problem, Solve
from .orders import Orders
from .output import say, terminal_width, warn
from .reader import StreamReader, chosen, read_with
from .stores import Item, Store
from .symbols import SUFFIXES, Symbol, names_in, of_solve, unknown
from .words import USAGE, counted, exit_status

POSITIONS = re.compile(r'\w+(,\w+)*\Z')
FIELDS = ('lower', 'level', 'upper', 'marginal')      # of the numbers of an element, in their order


class Shown:
    """The symbol of a table: its elements, which wait outside of memory where they are many."""

    def __init__(self, name: str, kind: str, figures: Tuple[str, ...]) -> None:
        self.name, self.kind, self.figures = name, kind, figures
        # Labels, the text of an element that is not split, four numbers.
        self.elements = Store()
        self.depth = -1                 # the most labels of an element that is split
        self.ambiguous = ''             # an element that is not

    def put(self, element: str, reading: Reading, numbers: Sequence[str]) -> None:
        """Takes an element with its four numbers."""
        if reading.is_certain:
            self.depth = max(self.depth, len(reading.labels))
        else:
            self.ambiguous = self.ambiguous or element
        self.elements.put((reading.labels, '' if reading.is_certain else element, tuple(numbers)))

    @property
    def count(self) -> int:
        """How many positions the table has; an element that is not split takes one."""
        return max(self.depth, 0 if self.depth >= 0 or not self.elements.count else 1)


class TableReader(StreamReader):
    """Keeps the elements of the displays that may be requested, the last of each name."""

    def __init__(self, path: str, names: Sequence[str], request: Request) -> None:
        super().__init__(path, request.solve)
        self.wanted = {name.lower() for name in names}
        self.is_plain = 'plain' in request.options
        self.found: Dict[str, Shown] = {}
        self.known: Optional[Labels] = None

    @property
    def labels(self) -> Labels:
        """What the echo tells of labels; it comes before all else."""
        if self.known is None:
            self.known = Labels(self.listing, self.is_plain)
        return self.known

    def head(self, event: ev.Event) -> None:
        super().head(event)
        display = self.display
        if event.kind == ev.SOLVE or not display:
            return
        name = display.name.lower()
        self.keeps_entries = display.kind != 'TEXT' and name in self.wanted and self.chosen in (None, display.after)
        if self.keeps_entries:
            shown = self.found[name] = Shown(display.name, display.kind.lower(), ('level',))
            if display.value:
                shown.put(display.name, Reading(()), ('', display.value, '', ''))

    def put(self, display: Display, element: str, value: str) -> None:
        is_set = display.kind == 'SET'
        reading = self.labels.of_entry(display.name, element, not is_set)
        self.found[display.name.lower()].put(element.rstrip(' '), reading, ('', 'yes' if is_set else value, '', ''))


def of_symbol(symbol: Symbol) -> Shown:
    """The symbol of a solve."""
    shown = Shown(symbol.name, symbol.kind, symbol.figures)
    for cell in symbol.cells:
        shown.put(cell.element, cell.reading, cell.figures[:4])
    return shown


def shown_by(reader: TableReader, name: str, figure: Optional[str]) -> Shown:
    """The symbol that is requested, from the solve or else from a display."""
    listing = reader.listing
    solve: Optional[Solve] = chosen(listing, reader.chosen) if listing.begun or reader.chosen else None
    symbol = of_solve(solve, name, reader.labels) if solve else None
    if symbol and symbol.kind != 'certificate':
        return of_symbol(symbol)
    display = reader.found.get(name.lower())
    if not display and '.' not in name:
        display = reader.found.get('%s.%s' % (name.lower(), SUFFIXES[figure or 'level']))
    if display:
        if figure and '.' not in display.name:
            raise Problem('%s is a displayed %s; it has no --%s' % (display.name, display.kind, figure), USAGE)
        return display
    if symbol:
        warn('%s prints no levels (option solprint = off); the certificate has those of %s that are not 0'
             % (listing.name, symbol.name))
        return of_symbol(symbol)
    raise unknown(name, names_in(listing, solve), listing)


def domain_of(listing: Listing, name: str, count: int) -> List[str]:
    """The sets of a symbol's positions as its declaration in the echo names them; numbers where it
    shows none."""
    pattern = re.compile(r'\b%s\s*\(([^()]*)\)' % re.escape(name.partition('.')[0]), re.I)
    for raw in listing.echo:
        found = pattern.search(raw.decode('latin-1'))
        sets = [it.strip().lower() for it in found[1].split(',')] if found else []
        if len(sets) == count:
            return sets
    return []


def positions_of(text: str, option: str, count: int, domain: List[str]) -> List[int]:
    """The positions that `--rows` or `--columns` names, counted from 0."""
    if not POSITIONS.match(text):
        raise Problem('--%s expects positions as 1,3 or sets as i,k, not %r' % (option, text), USAGE)
    found: List[int] = []
    for word in text.split(','):
        if word.isdigit():
            place = int(word) - 1
        else:
            places = [k for k, it in enumerate(domain) if it == word.lower()]
            if len(places) != 1:
                has = 'has %s' % ', '.join(domain) if domain else 'is not declared in the echo'
                raise Problem('--%s: %s; the domain %s, and positions count from 1'
                              % (option, ('%s occurs twice' if places else 'there is no %s') % word, has), USAGE)
            place = places[0]
        if not 0 <= place < count:
            raise Problem('--%s expects positions from 1 to %d, not %s' % (option, count, word), USAGE)
        if place in found:
            raise Problem('--%s names %s twice' % (option, word), USAGE)
        found.append(place)
    return found


def arranged(request: Request, count: int, domain: List[str]) -> Tuple[List[int], List[int]]:
    """The positions in rows and in columns; by default the last of several is in columns."""
    options = request.options
    rows = positions_of(options['rows'], 'rows', count, domain) if 'rows' in options else None
    columns = positions_of(options['columns'], 'columns', count, domain) if 'columns' in options else None
    if rows and columns and set(rows) & set(columns):
        raise Problem('--rows and --columns name the same position', USAGE)
    if rows is None and columns is None:
        return (list(range(count - 1)), [count - 1]) if count > 1 else (list(range(count)), [])
    rest = [k for k in range(count) if k not in (rows or []) + (columns or [])]
    if columns is None:
        return rows or [], rest
    return (rows or []) + rest, columns


class Places:
    """Where the elements of a symbol are in a table: a number for each position, which sorts them.
    The place of the first one also has what tells elements that are not split from each other."""

    def __init__(self, shown: Shown, count: int, labels: Labels) -> None:
        self.shown, self.count = shown, count
        orders = Orders()
        for found, text, _ in shown.elements:
            if not text and len(found) == count:
                orders.put(found)
        self.labels = [order.labels(labels.place_of) for order in orders.of] or [[] for _ in range(count)]
        self.ranks = [{label: rank for rank, label in enumerate(it)} for it in self.labels]

    def __iter__(self) -> Iterator[Tuple[Item, Sequence[str]]]:
        """The place of each element, and its four numbers."""
        last = -1
        for number, (found, text, numbers) in enumerate(self.shown.elements, 1):
            if text or len(found) != self.count:
                yield ((last, number, text or '.'.join(found)),) + tuple(len(it) for it in self.labels[1:]), numbers
                continue
            ranks = [rank[label] for rank, label in zip(self.ranks, found)]
            last = ranks[0] if ranks else last
            yield tuple((rank, 0, '') if k == 0 else rank for k, rank in enumerate(ranks)), numbers

    def texts(self, positions: Sequence[int]) -> Texts:
        """What gives the labels at these positions from their places."""
        def label(position: int, place: Any) -> str:
            if position == 0 and place[1]:
                return str(place[2])
            rank = place[0] if position == 0 else place
            return self.labels[position][rank] if rank < len(self.labels[position]) else ''
        return lambda places: [label(position, place) for position, place in zip(positions, places)]


def grid_of(places: Places, rows: List[int], columns: List[int], figures: Sequence[str], width: int) -> Grid:
    """The table of these elements; where it shows several numbers, they are its columns."""
    chosen_figures = [FIELDS.index(it) for it in figures]
    is_one = len(figures) == 1
    column_texts = places.texts(columns) if is_one else lambda it: [figures[it[0]]]
    grid = Grid(places.texts(rows), column_texts, (len(rows), len(columns) if is_one else 1), width)
    for place, numbers in places:
        row, column = tuple(place[p] for p in rows), tuple(place[p] for p in columns)
        for k, figure in enumerate(chosen_figures):
            grid.put(row, column if is_one else (k,), numbers[figure])
    return grid


def table_lines(reader: TableReader, shown: Shown, request: Request) -> Iterator[str]:
    """The title of a table and its lines."""
    listing = reader.listing
    asked = [it for it in FIGURES if it in request.options]
    count = shown.count
    rows, columns = arranged(request, count, domain_of(listing, shown.name, count))
    figures: Sequence[str] = asked or (['level'] if columns or len(shown.figures) == 1 else shown.figures)
    if shown.ambiguous:
        warn('%s: the labels of %s can be read in several ways; such elements are not split%s'
             % (listing.name, shown.ambiguous.strip(), PLAIN_HINT if listing.is_restarted else ''))
    name = shown.name if '.' in shown.name or len(shown.figures) == 1 else '%s, %s' % (shown.name, ' '.join(figures))
    yield '%s %s: %s' % (shown.kind, name, counted(shown.elements.count, 'element'))
    if shown.elements.count:
        yield from grid_of(Places(shown, count, reader.labels), rows, columns, figures, terminal_width()).lines()


def run_table(request: Request) -> int:
    """The command `table`."""
    (name,), path = listing_last(request.words)
    asked = [it for it in FIGURES if it in request.options]
    if len(asked) > 1:
        raise Problem('--%s and --%s exclude each other' % (asked[0], asked[1]), USAGE)
    reader = TableReader(path, [name] + ['%s.%s' % (name, suffix) for suffix in SUFFIXES.values()], request)
    listing = read_with(reader)
    say(table_lines(reader, shown_by(reader, name, asked[0] if asked else None), request))
    if listing.is_cut:
        warn('%s was cut off; the table has what precedes the end' % path)
    return exit_status(listing)
