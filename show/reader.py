"""Builds a listing, solve by solve, from its events."""
import re
import sys
from contextlib import contextmanager
from typing import IO, Callable, Dict, Iterator, List, Optional, Sequence

from . import events as ev
from .exact import SPECIAL, is_value
from .lines import (counts_of, effort_of, entry_of, error_of, figures_of, put_proved,
                    status_of)
from .model import (OPTIMAL, Block, Display, Listing, PrintedColumn, PrintedColumns, PrintedRows,
                    Problem, Proof, Solve)
from .words import counted

QUOTED_NUMBER = re.compile(rb'["\'](SCALAR|VARIABLE|EQUATION) ')


class SolveBuilder:
    """Fills a solve from the events after its head."""

    def __init__(self, solve: Solve, keeps_rows: bool = True) -> None:
        self.solve = solve
        self.keeps_rows = keeps_rows
        self.put: Dict[str, Callable[[str], bool]] = {
            ev.EQUATION: self.equation, ev.ROW: self.row, ev.NO_ROWS: lambda text: True,
            ev.MORE_ROWS: self.more_rows, ev.VARIABLE: self.variable, ev.COLUMN: self.column,
            ev.COEFFICIENT: self.coefficient, ev.MORE_COLUMNS: self.more_columns,
            ev.COUNTS: self.counts, ev.EFFORT: self.effort, ev.SOLVER_STATUS: self.solver_status,
            ev.MODEL_STATUS: self.model_status, ev.OBJECTIVE: self.objective, ev.BLOCK: self.block,
            ev.FIGURES: self.figures, ev.PROOF: self.proof, ev.PROVED: self.proved}

    def equation(self, text: str) -> bool:
        self.solve.rows.append(PrintedRows(text[len('EQUATION '):]))
        return True

    def row(self, text: str) -> bool:
        if not self.solve.rows or '.. ' not in text:
            return False
        if self.keeps_rows:
            self.solve.rows[-1].rows.append(text[1:])
        return True

    def more_rows(self, text: str) -> bool:
        self.solve.rows[-1].hidden = int(text.split()[0][1:])
        return True

    def variable(self, text: str) -> bool:
        self.solve.columns.append(PrintedColumns(text[len('VARIABLE '):]))
        return True

    def column(self, text: str) -> bool:
        parts = text[1:].rsplit(' ', 4)
        if len(parts) != 5 or parts[1] != 'lower' or parts[3] != 'upper' or not self.solve.columns:
            return False
        if not is_value(parts[2]) or not is_value(parts[4]):
            return False
        if self.keeps_rows:
            self.solve.columns[-1].columns.append(PrintedColumn(parts[0], parts[2], parts[4]))
        return True

    def coefficient(self, text: str) -> bool:
        number, blank, row = text[2:].partition(' ')
        if not blank or not is_value(number):
            return False
        if self.keeps_rows:
            if not self.solve.columns or not self.solve.columns[-1].columns:
                return False
            self.solve.columns[-1].columns[-1].entries.append((number, row))
        return True

    def more_columns(self, text: str) -> bool:
        self.solve.columns[-1].hidden = int(text.split()[0][1:])
        return True

    def counts(self, text: str) -> bool:
        self.solve.counts = counts_of(text)
        return self.solve.counts is not None

    def effort(self, text: str) -> bool:
        self.solve.effort = effort_of(text)
        return self.solve.effort is not None

    def solver_status(self, text: str) -> bool:
        self.solve.solver_status = status_of(text)
        return True

    def model_status(self, text: str) -> bool:
        self.solve.model_status = status_of(text)
        return True

    def objective(self, text: str) -> bool:
        self.solve.value = text[len('OBJECTIVE '):]
        return is_value(self.solve.value)

    def block(self, text: str) -> bool:
        found = ev.BLOCK_HEAD.match(text)
        if found:
            self.solve.blocks.append(Block(found[1], found[2]))
        return found is not None

    def figures(self, text: str) -> bool:
        line = figures_of(text)
        if line:
            self.solve.blocks[-1].figures[line[0]] = line[1]
        return line is not None

    def proof(self, text: str) -> bool:
        self.solve.proof = Proof(text[len('PROOF '):])
        return True

    def proved(self, text: str) -> bool:
        return self.solve.proof is not None and put_proved(self.solve.proof, text)


class Reader:
    """Builds a listing event by event. What is not kept is only counted."""

    def __init__(self, name: str, keeps_rows: bool = True, keeps_entries: bool = True) -> None:
        self.listing = Listing(name)
        self.keeps_rows = keeps_rows
        self.keeps_entries = keeps_entries
        self.builder: Optional[SolveBuilder] = None
        self.quoted: Optional[List[bytes]] = None
        self.display: Optional[Display] = None

    def fail(self, event: ev.Event) -> Problem:
        return Problem('%s is no listing of gams25: line %d cannot be read: %s'
                       % (self.listing.name, event.number, event.text.strip()[:60]), 3)

    def close_solve(self) -> None:
        if self.builder:
            self.builder.solve.is_whole = True
            self.builder = None

    def forget(self, solve: Solve) -> None:
        """Is called for the solve before the one that begins; a reader that keeps less drops what
        it holds."""

    def is_quoted(self, text: str) -> bool:
        """Whether the source has this text in quotation marks, so that it is a text and no
        number."""
        if self.quoted is None:
            self.quoted = [raw for raw in self.listing.echo if QUOTED_NUMBER.search(raw)]
        return any(mark + text.encode() + mark in raw for raw in self.quoted for mark in (b'"', b"'"))

    def head(self, event: ev.Event) -> None:
        """Begins a solve or an item of a display."""
        found = ev.HEAD.match(event.text)
        line, rest = (int(found[1]), found[2]) if found else (0, '')
        self.close_solve()
        after = self.listing.begun
        if event.kind == ev.SOLVE:
            if self.listing.solves:
                self.forget(self.listing.solves[-1])
            _, model, direction, objective = rest.split(' ')
            self.listing.begun += 1
            solve = Solve(after + 1, line, model, direction, objective)
            self.listing.solves.append(solve)
            self.builder = SolveBuilder(solve, self.keeps_rows)
            return
        kind, _, name = rest.partition(' ')
        if event.kind == ev.TEXT or (event.kind == ev.SCALAR and self.is_quoted(rest)):
            self.display = Display(after, line, 'TEXT', rest)
        elif event.kind == ev.SCALAR:
            name, _, value = name.partition(' = ')
            self.display = Display(after, line, kind, name, value)
        else:
            self.display = Display(after, line, kind, name)
        self.listing.displays.append(self.display)

    def entry(self, event: ev.Event) -> None:
        display = self.display
        entry = entry_of(event.text, display.kind == 'SET') if display else None
        if entry is None or display is None:
            raise self.fail(event)
        display.count += 1
        if self.keeps_entries:
            self.put(display, *entry)

    def put(self, display: Display, element: str, value: str) -> None:
        """Keeps an entry of a display."""
        display.entries.append((element, value))

    def take(self, event: ev.Event) -> None:
        """Takes one event."""
        kind = event.kind
        self.listing.lines = event.number
        if kind == ev.ENTRY:
            self.entry(event)
        elif self.builder and kind in self.builder.put:
            try:
                is_read = self.builder.put[kind](event.text)
            except (ValueError, IndexError):
                is_read = False
            if not is_read:
                raise self.fail(event)
        elif kind == ev.ECHO:
            if not self.listing.echo:
                self.listing.first_line = int(event.text)
            self.listing.echo.append(event.raw.rstrip(b'\n'))
        elif kind in (ev.SOLVE, ev.ITEM, ev.SCALAR, ev.TEXT):
            self.head(event)
        elif kind == ev.ERROR:
            self.close_solve()
            self.listing.errors.append(error_of(event.text))
        elif kind == ev.END:
            self.close_solve()
            found = ev.LAST.match(event.text)
            self.listing.status, self.listing.answered = (int(found[1]), int(found[2])) if found else (0, 0)
        elif kind == ev.CUT:
            self.listing.cut = event.text
        elif kind != ev.NOTHING:
            raise self.fail(event)


@contextmanager
def opened(path: str) -> Iterator[IO[bytes]]:
    """The bytes of a file, or of standard input for `-`."""
    if path == '-':
        yield sys.stdin.buffer
        return
    try:
        stream = open(path, 'rb', buffering=1 << 20)
    except OSError as fault:
        raise Problem('cannot read %s: %s' % (path, fault.strerror), 3)
    with stream:
        yield stream


def hint(path: str) -> str:
    """What may have been meant where a source was named in place of its listing."""
    return '; its listing is %slst' % path[:-3] if path.endswith('.gms') else ''


def events_of(path: str) -> Iterator[ev.Event]:
    """The events of a listing file. An empty file is no listing."""
    with opened(path) as stream:
        count = 0
        try:
            for event in ev.events(stream, path):
                count += 1
                yield event
        except OSError as fault:
            raise Problem('cannot read %s: %s' % (path, fault.strerror), 3)
        except Problem as problem:
            raise Problem(str(problem) + hint(path), problem.status)
    if not count:
        raise Problem('%s is empty: no listing was written, or none of it was' % path, 3)


class SparingReader(Reader):
    """Keeps one solve, the chosen one or else the last, and the entries of some displays or of
    all."""

    def __init__(self, path: str, number: Optional[int], names: Optional[Sequence[str]] = None, keeps_rows: bool = True) -> None:
        super().__init__(path, keeps_rows)
        self.chosen = number
        self.names = names if names is None else {name.lower() for name in names}

    def forget(self, solve: Solve) -> None:
        if solve.number != self.chosen:
            drop(solve)

    def head(self, event: ev.Event) -> None:
        super().head(event)
        if self.names is None or event.kind == ev.SOLVE or not self.display:
            return
        name = self.display.name.lower()
        self.keeps_entries = name in self.names
        # Only the last display of a name is needed.
        if self.keeps_entries and self.chosen is None:
            for it in self.listing.displays[:-1]:
                if it.name.lower() == name:
                    it.entries = []


class StreamReader(Reader):
    """Keeps one solve, the chosen one or else the last, and one display of each name: what it holds
    does not grow with the listing. With `keeps_heads` the heads of all solves are kept."""

    def __init__(self, path: str, number: Optional[int], keeps_heads: bool = False) -> None:
        super().__init__(path, keeps_rows=False)
        self.chosen = number
        self.keeps_heads = keeps_heads
        self.names: Dict[str, Display] = {}

    def forget(self, solve: Solve) -> None:
        if solve.number == self.chosen:
            return
        drop(solve)
        if not self.keeps_heads:
            self.listing.solves.remove(solve)
            self.listing.has_other = self.listing.has_other or solve.code != OPTIMAL

    def head(self, event: ev.Event) -> None:
        super().head(event)
        if event.kind != ev.SOLVE and self.display:
            self.listing.displays.pop()
            if self.display.kind != 'TEXT' and self.display.name not in self.names:
                self.names[self.display.name] = self.display
                self.listing.displays = list(self.names.values())


def drop(solve: Solve) -> None:
    """Drops what a solve holds except for its head, its statuses and the exact level of its
    objective."""
    solve.rows, solve.columns, solve.blocks = [], [], []
    if solve.proof:
        kept = {word: {solve.objective: numbers[solve.objective]} for word, numbers in solve.proof.numbers.items()
                if word in ('level', 'point') and solve.objective in numbers}
        solve.proof.numbers = kept


def read_with(reader: Reader) -> Listing:
    """Reads the file of a reader's listing."""
    for event in events_of(reader.listing.name):
        reader.take(event)
    return reader.listing


def read_listing(path: str, number: Optional[int] = None, names: Optional[Sequence[str]] = None,
                 keeps_rows: bool = True) -> Listing:
    """Reads a listing with one solve, the chosen one or else the last, and the entries of these
    displays or of all."""
    return read_with(SparingReader(path, number, names, keeps_rows))


def read_all(path: str) -> Listing:
    """Reads a listing with all solves."""
    return read_with(Reader(path))


def read_heads(path: str) -> Listing:
    """Reads a listing with what a glance shows: no levels, and of displays the extent alone."""
    return read_with(HeadReader(path))


class HeadReader(Reader):
    """Keeps the heads of solves, and of displays the least and the greatest number."""

    def __init__(self, path: str) -> None:
        super().__init__(path, keeps_rows=False)
        self.least = self.most = 0

    def put(self, display: Display, element: str, value: str) -> None:
        if not value or value in SPECIAL:
            return
        number = int(value.replace('.', ''))        # all numbers of a display have as many decimals
        if not display.least or number < self.least:
            display.least, self.least = value, number
        if not display.most or number > self.most:
            display.most, self.most = value, number

    def close_solve(self) -> None:
        solve = self.builder.solve if self.builder else None
        super().close_solve()
        if solve:
            drop(solve)


def chosen(listing: Listing, number: Optional[int]) -> Solve:
    """The solve of this number, or the last one."""
    count = listing.begun
    if not count:
        raise Problem('%s has no solve' % listing.name, 4)
    if number is None:
        return listing.solves[-1]
    if not 1 <= number <= count:
        raise Problem('%s has %s; --solve expects a number from 1 to %d' % (listing.name, counted(count, 'solve'), count), 4)
    return next(it for it in listing.solves if it.number == number)
