"""The lines of a listing as events, in one pass, with one line of lookahead."""
import re
from typing import IO, Iterator, List, NamedTuple, Optional, Tuple

from .exact import is_value
from .model import Problem

ECHO, ERROR, TEXT, SCALAR, ITEM = 'echo', 'error', 'text', 'scalar', 'item'
ENTRY, NOTHING, SOLVE = 'entry', 'nothing', 'solve'
EQUATION, ROW, NO_ROWS, MORE_ROWS = 'equation', 'row', 'no rows', 'more rows'
VARIABLE, COLUMN, COEFFICIENT, MORE_COLUMNS = 'variable', 'column', 'coefficient', 'more columns'
COUNTS, EFFORT, SOLVER_STATUS, MODEL_STATUS = 'counts', 'effort', 'solver status', 'model status'
OBJECTIVE, BLOCK, FIGURES, PROOF, PROVED = 'objective', 'block', 'figures', 'proof', 'proved'
END, CUT = 'end', 'cut'

HEAD = re.compile(r'---- (\d+) (.*)\Z', re.S)
SOLVED = re.compile(r'SOLVE (\w+) (minimizing|maximizing) (\w+)\Z')
VALUED = re.compile(r'(SCALAR|VARIABLE|EQUATION) (\w+(?:\.\w+)?) = (\S+)\Z')
SHOWN = re.compile(r'(SET|PARAMETER|VARIABLE|EQUATION) (\w+(?:\.\w+)?)\Z')
FAULT = re.compile(r'\*\*\* (Source|Compile|Execution) error (\d+) (\w+) at line (\d+) column (\d+)(.*)\Z', re.S)
LAST = re.compile(r'END status (\d) solves (\d+)\Z')
MORE = re.compile(r' \((\d+) more (rows|columns)\)\Z')
BLOCK_HEAD = re.compile(r'(EQU|VAR) (\w+) LOWER LEVEL UPPER MARGINAL\Z')
ECHOED = re.compile(rb' {0,5}(\d+)  ')

# Where a line is: which lines may come next depends on it.
TOP, IN_ITEM, IN_ROWS, IN_COLUMNS = 'top', 'item', 'rows', 'columns'
IN_COUNTS, IN_LEVELS, IN_PROOF = 'counts', 'levels', 'proof'
INDENTED = {IN_ITEM: ENTRY, IN_COLUMNS: COEFFICIENT, IN_LEVELS: FIGURES, IN_PROOF: PROVED}
# How a line in a solve begins, its event, where the next one is.
PLAIN: List[Tuple[str, str, str]] = [
    ('EQUATION ', EQUATION, IN_ROWS),
    ('VARIABLE ', VARIABLE, IN_COLUMNS),
    ('ROWS ', COUNTS, IN_COUNTS),
    ('SOLVER STATUS ', SOLVER_STATUS, IN_COUNTS),
    ('SOLVER ', EFFORT, IN_COUNTS),
    ('MODEL STATUS ', MODEL_STATUS, IN_COUNTS),
    ('OBJECTIVE ', OBJECTIVE, IN_COUNTS),
    ('EQU ', BLOCK, IN_LEVELS),
    ('VAR ', BLOCK, IN_LEVELS),
    ('PROOF ', PROOF, IN_PROOF),
]


class Event(NamedTuple):
    """One line: what it is, its text without the line end, and its number in the listing."""
    kind: str
    text: str
    number: int
    raw: bytes = b''        # of an echoed line its bytes after the number


def text_of(raw: bytes) -> str:
    """The text of a line outside the echo; bytes that are not UTF-8 are kept as escapes."""
    return raw.decode('utf-8', 'backslashreplace')


def visible(text: str) -> str:
    """A text without characters that a terminal would act on."""
    return ''.join(it if it.isprintable() else '\\x%02x' % ord(it) for it in text)


def echo_number(raw: bytes, expected: Optional[int]) -> Optional[int]:
    """The number of an echoed line, where it is one and counts on from the line before it."""
    found = ECHOED.match(raw)
    if not found or len(found[0]) != max(6, len(found[1])) + 2:
        return None
    number = int(found[1])
    return number if number > 0 and expected in (None, number) else None


def kind_of_head(text: str, following: str, is_last: bool) -> str:
    """What a line `---- L ..` is, which the line after it decides where a text has the same
    letters."""
    head = HEAD.match(text)
    rest = head[2] if head else ''
    begins = following.startswith
    if SOLVED.match(rest) and (is_last or begins('EQUATION ') or begins('VARIABLE ') or begins('ROWS ')):
        return SOLVE
    valued = VALUED.match(rest)
    if valued and is_value(valued[3]):
        return SCALAR
    if SHOWN.match(rest) and (is_last or begins('  ')):
        return ITEM
    return TEXT


class Scanner:
    """Turns lines into events, one at a time."""

    def __init__(self, name: str) -> None:
        self.name = name
        self.place = TOP
        self.number = 0

    def stray(self, text: str) -> Problem:
        shown = visible(text if len(text) <= 60 else text[:57] + '...')
        return Problem('%s is no listing of gams25: line %d cannot occur there: %s' % (self.name, self.number, shown), 3)

    def indented(self, text: str) -> str:
        """The event of a line that begins with a blank."""
        if text.startswith('  '):
            if self.place == IN_ITEM and text in ('  (all zero)', '  (empty)'):
                return NOTHING
            if self.place in INDENTED:
                return INDENTED[self.place]
        elif self.place == IN_ROWS:
            return NO_ROWS if text == ' (no rows)' else MORE_ROWS if MORE.match(text) else ROW
        elif self.place == IN_COLUMNS:
            return MORE_COLUMNS if MORE.match(text) else COLUMN
        raise self.stray(text)

    def flush(self, text: str, following: str, is_last: bool) -> str:
        """The event of a line that begins in column 1."""
        if text.startswith('---- '):
            if not HEAD.match(text):
                raise self.stray(text)
            kind = kind_of_head(text, following, is_last)
            self.place = {ITEM: IN_ITEM, SOLVE: IN_ROWS}.get(kind, TOP)
            return kind
        if text.startswith('*** ') and FAULT.match(text):
            self.place = TOP
            return ERROR
        if LAST.match(text):
            self.place = TOP
            return END
        if self.place not in (TOP, IN_ITEM):
            for prefix, kind, place in PLAIN:
                if text.startswith(prefix):
                    self.place = place
                    return kind
        raise self.stray(text)

    def event(self, raw: bytes, following: bytes, is_last: bool) -> Event:
        text = text_of(raw)
        if text.startswith(' '):
            kind = self.indented(text)
        else:
            kind = self.flush(text, text_of(following[:12]), is_last)
        return Event(kind, text, self.number)


def without_end(raw: bytes) -> bytes:
    """A line without its line end, also where a transfer has put a carriage return before it."""
    raw = raw[:-1] if raw.endswith(b'\n') else raw
    return raw[:-1] if raw.endswith(b'\r') else raw


def events(stream: IO[bytes], name: str) -> Iterator[Event]:
    """The events of a listing. A last line without a line end is the event CUT."""
    scanner = Scanner(name)
    lines = iter(stream)
    expected: Optional[int] = None
    raw = next(lines, None)
    while raw is not None and raw.endswith(b'\n'):          # the echo
        number = echo_number(raw, expected)
        if number is None:
            break
        scanner.number += 1
        yield Event(ECHO, str(number), scanner.number, raw.split(b'  ', 1)[1] if number > 99999 else raw[8:])
        expected = number + 1
        raw = next(lines, None)
    while raw is not None:
        scanner.number += 1
        if not raw.endswith(b'\n'):
            yield Event(CUT, text_of(raw), scanner.number)
            return
        following = next(lines, None)
        is_last = following is None or not following.endswith(b'\n')
        yield scanner.event(without_end(raw), following or b'', is_last)
        raw = following
