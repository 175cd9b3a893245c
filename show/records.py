"""`csv` and `json`: one record an element, in one pass and with bounded memory."""
import csv
import json
import sys
import tempfile
from fractions import Fraction
from typing import IO, Any, Dict, Iterator, List, NamedTuple, Optional, Set, Tuple

from . import events as ev
from .cli import Request, listing_last
from .exact import SPECIAL
from .labels import PLAIN_HINT, Labels, Reading
from .model import Display, Figures, Listing, Problem, Solve
from .output import warn
from .reader import StreamReader, drop, events_of
from .symbols import NO_FIGURES, names_in, proved_figures, solved_names, unknown
from .words import USAGE, counted, exit_status, meaning_of

IN_MEMORY = 1 << 20            # bytes of records that are kept before they go to a temporary file
HEAD = ['solve', 'line', 'kind', 'name']
TAIL = ['lower', 'level', 'upper', 'marginal', 'level_exact', 'marginal_exact']


class Record(NamedTuple):
    """One element with its numbers as printed, and exactly where the certificate has them."""
    solve: int
    line: int
    kind: str
    name: str
    labels: Tuple[str, ...]
    figures: Figures
    level_exact: str = ''
    marginal_exact: str = ''


class Spool:
    """Records that wait until the number of labels is known; many of them wait in a temporary
    file."""

    def __init__(self) -> None:
        self.stream: IO[str] = tempfile.SpooledTemporaryFile(IN_MEMORY, 'w+', encoding='utf-8', newline='')
        self.writer = csv.writer(self.stream)
        self.most = 0

    def put(self, record: Record) -> None:
        solve, line, kind, name, labels, figures, level, marginal = record
        self.writer.writerow((solve, line, kind, name, *figures[:4], level, marginal, *labels))
        self.most = max(self.most, len(labels))

    def records(self) -> Iterator[Record]:
        self.stream.seek(0)
        for fields in csv.reader(self.stream):
            yield Record(int(fields[0]), int(fields[1]), fields[2], fields[3], tuple(fields[10:]),
                         Figures(*fields[4:8]), fields[8], fields[9])

    def close(self) -> None:
        self.stream.close()


def exact_text(numbers: Dict[str, Fraction], element: str, has_all: bool) -> str:
    """The exact number of an element; one that the certificate does not list is 0 where it lists
    all others."""
    if element in numbers:
        return str(numbers[element])
    return '0' if has_all else ''


def records_of_solve(solve: Solve, labels: Labels, names: Set[str]) -> Iterator[Tuple[Record, Reading]]:
    """The records of a solve: of its printed levels, or of its certificate where it prints none."""
    proof = solve.proof
    levels = (proof.of('level') or proof.of('point')) if proof else {}
    marginals = proof.of('marginal') if proof else {}
    is_optimal = proof is not None and proof.kind == 'Optimal' and solve.is_whole
    has_levels = solve.is_whole and proof is not None and (
        proof.kind in ('Optimal', 'Unbounded') or (proof.kind == 'Interrupted' and proof.phase is not None and proof.phase[0] == 2))
    if solve.blocks:
        blocks = [('equation' if it.kind == 'EQU' else 'variable', it.name, it.figures) for it in solve.blocks]
    else:
        kinds = {'EQU': 'equation', 'VAR': 'variable', '': 'equation or variable'}
        blocks = [(kinds[kind], name, proved_figures(solve, name)) for name, kind in solved_names(solve).items()]
    for kind, name, elements in blocks:
        if names and name.lower() not in names:
            continue
        for element, figures in elements.items():
            reading = labels.of_element(element)
            level = exact_text(levels, element, has_levels) if kind == 'variable' else ''
            yield Record(solve.number, solve.line, kind, name, reading.labels, figures, level,
                         exact_text(marginals, element, is_optimal)), reading


class RecordReader(StreamReader):
    """Turns solves and displays into records as they are read, and keeps no more than one solve."""

    def __init__(self, path: str, names: List[str], request: Request) -> None:
        super().__init__(path, None, request.command == 'json')
        self.wanted = {name.lower() for name in names}
        self.number = None if request.is_all else request.solve
        self.is_all = request.is_all
        self.is_plain = 'plain' in request.options
        self.solved = Spool()
        self.shown: Dict[str, Spool] = {}
        self.labels: Optional[Labels] = None
        self.warned: Set[str] = set()
        # Of the display that is read, where it is needed.
        self.spool: Optional[Spool] = None
        self.found: Set[str] = set()                  # the names of which there are records

    def of(self) -> Labels:
        """What the echo tells of labels; it comes before all else."""
        if self.labels is None:
            self.labels = Labels(self.listing, self.is_plain)
        return self.labels

    def told(self, name: str, element: str, reading: Reading) -> None:
        if not reading.is_certain and name not in self.warned:
            self.warned.add(name)
            warn('%s: the labels of %s %s can be read in several ways; label_1 has them as they are printed%s'
                 % (self.listing.name, name, element, PLAIN_HINT if self.listing.is_restarted else ''))

    def close_solve(self) -> None:
        solve = self.builder.solve if self.builder else None
        super().close_solve()
        if solve and (self.is_all or solve.number == self.number):
            self.finish(solve)

    def finish(self, solve: Solve) -> None:
        """Puts the records of a solve."""
        for record, reading in records_of_solve(solve, self.of(), self.wanted):
            self.found.add(record.name.lower())
            self.told(record.name, '(%s)' % ','.join(record.labels), reading)
            self.solved.put(record)
        drop(solve)

    def close(self) -> None:
        """Puts the records of the last solve, where it is needed and not yet put."""
        solves = self.listing.solves
        if solves and (self.number is None and not self.is_all or (self.builder and self.number in (None, solves[-1].number))):
            self.finish(solves[-1])

    def wants(self, display: Display) -> bool:
        if display.kind == 'TEXT' or (self.wanted and display.name.lower() not in self.wanted):
            return False
        return self.number in (None, display.after)

    def head(self, event: ev.Event) -> None:
        super().head(event)
        display = self.display
        if event.kind == ev.SOLVE or not display:
            return
        self.keeps_entries = self.wants(display)
        if not self.keeps_entries:
            return
        key = display.name.lower()
        self.found.add(key)
        if key in self.shown and not self.is_all and self.number is None:
            # The last display of a name replaces those before it.
            self.shown.pop(key).close()
        self.spool = self.shown.setdefault(key, Spool())
        if display.value:
            self.spool.put(Record(display.after, display.line, display.kind.lower(), display.name, (),
                                  NO_FIGURES._replace(level=display.value)))

    def put(self, display: Display, element: str, value: str) -> None:
        if self.spool:
            reading = self.of().of_entry(display.name, element, display.kind != 'SET')
            if not reading.is_certain:
                self.told(display.name, element.strip(), reading)
            self.spool.put(Record(display.after, display.line, display.kind.lower(), display.name, reading.labels,
                                  Figures('', value, '', '')))

    def spools(self) -> List[Spool]:
        return [self.solved] + list(self.shown.values())


def read_records(request: Request) -> RecordReader:
    """Reads the listing of a request, and checks that what it names is there."""
    names, path = listing_last(request.words)
    reader = RecordReader(path, names, request)
    known: Dict[str, None] = {}
    for event in events_of(path):
        if event.kind == ev.BLOCK or event.kind == ev.EQUATION or event.kind == ev.VARIABLE:
            known[event.text.split(' ')[1]] = None
        reader.take(event)
    reader.close()
    listing = reader.listing
    if reader.number is not None and not 0 <= reader.number <= listing.begun:
        raise Problem('%s has %s; --solve expects a number from 0 to %d, or all'
                      % (path, counted(listing.begun, 'solve'), listing.begun), USAGE)
    for name in names:
        if name.lower() not in reader.found:
            raise unknown(name, list(dict.fromkeys(list(known) + names_in(listing, None))), listing)
    if listing.is_cut:
        warn('%s was cut off; the records are those that it has' % path)
    return reader


def csv_number(text: str) -> str:
    """A printed number for a spreadsheet: a dot is 0."""
    return '0' if text == '.' else text


def run_csv(request: Request) -> int:
    """The command `csv`."""
    reader = read_records(request)
    most = max(spool.most for spool in reader.spools())
    if hasattr(sys.stdout, 'reconfigure'):
        sys.stdout.reconfigure(newline='')
    writer = csv.writer(sys.stdout, lineterminator='\r\n')
    writer.writerow(HEAD + ['label_%d' % k for k in range(1, most + 1)] + TAIL)
    for spool in reader.spools():
        for record in spool.records():
            labels = list(record.labels) + [''] * (most - len(record.labels))
            writer.writerow([record.solve, record.line, record.kind, record.name] + labels
                            + [csv_number(text) for text in record.figures[:4]] + [record.level_exact, record.marginal_exact])
    return exit_status(reader.listing)


def json_number(text: str) -> str:
    """A printed number as JSON: its own digits, a text for infinities and NA, null where there is
    none."""
    if not text:
        return 'null'
    return json.dumps(text) if text in SPECIAL or text == 'yes' else csv_number(text)


def json_record(record: Record) -> str:
    """A record as a JSON object on one line."""
    fields = ['"solve": %d' % record.solve, '"line": %d' % record.line, '"kind": %s' % json.dumps(record.kind),
              '"name": %s' % json.dumps(record.name), '"labels": %s' % json.dumps(list(record.labels))]
    fields += ['"%s": %s' % (key, json_number(text)) for key, text in zip(TAIL, record.figures[:4])]
    fields += ['"level_exact": %s' % json.dumps(record.level_exact or None),
               '"marginal_exact": %s' % json.dumps(record.marginal_exact or None)]
    return '{%s}' % ', '.join(fields)


def json_solve(solve: Solve) -> Dict[str, Any]:
    """The summary of a solve."""
    return {
        'solve': solve.number, 'line': solve.line, 'model': solve.model, 'direction': solve.direction,
        'objective': solve.objective, 'value': solve.value or None,
        'model_status': solve.model_status.code if solve.model_status else None,
        'solver_status': solve.solver_status.code if solve.solver_status else None,
        'meaning': meaning_of(solve),
        'rows': solve.counts.rows if solve.counts else None,
        'columns': solve.counts.columns if solve.counts else None,
        'nonzeros': solve.counts.nonzeros if solve.counts else None,
        'solver': solve.effort.solver if solve.effort else None,
        'pivots': solve.effort.pivots if solve.effort else None,
        'certificate': solve.proof.kind if solve.proof else None,
        'bound_exact': str(solve.proof.bound) if solve.proof and solve.proof.bound is not None else None,
    }


def json_head(listing: Listing) -> Dict[str, Any]:
    """What the listing has besides records."""
    errors = [{'kind': it.kind, 'code': it.code, 'name': it.name, 'line': it.line, 'column': it.column,
               'where': it.where or None, 'count': int(it.count) if it.count else None} for it in listing.errors]
    return {'listing': listing.name, 'status': listing.status, 'is_cut_off': listing.is_cut, 'errors': errors,
            'solves': [json_solve(it) for it in listing.solves]}


def run_json(request: Request) -> int:
    """The command `json`."""
    reader = read_records(request)
    head = json.dumps(json_head(reader.listing), indent=1)
    sys.stdout.write(head[:-2] + ',\n "records": [')
    separator = '\n  '
    for spool in reader.spools():
        for record in spool.records():
            sys.stdout.write(separator + json_record(record))
            separator = ',\n  '
    sys.stdout.write('\n ]\n}\n')
    return exit_status(reader.listing)

