"""The lines of a source: their ends, their classes and their errors (docs/LANGUAGE.md, "Lines").

A source is a `str` of one character for each byte. `Source.code` is its text without comments and
control lines: these are blank in it, and each line ends with one line feed, so tokens are read off
it. An offset into it has a place.
"""
from bisect import bisect_right
from dataclasses import dataclass
from typing import NamedTuple, Optional

from reference import errors

MOST_BYTES = 1_048_576
MOST_LINE = 32_768
CONTROLS = set('$title $ontext $offtext $offsymxref $offsymlist $offlisting $onlisting $offupper $onupper $eject'.split())


class Place(NamedTuple):
    """A line and a column, both from 1; columns count bytes, and a tab moves on to the next one
    after a multiple of 8.
    """
    line: int
    column: int


class SourceFault(Exception):
    """A source error, at this place."""

    def __init__(self, code: errors.Source, at: Place) -> None:
        super().__init__(code, at)
        self.code, self.at = code, at


def column_after(text: str) -> int:
    """The column after a text that begins a line."""
    return len(text.replace('\r', ' ').expandtabs(8)) + 1


def split_lines(source: str) -> list[str]:
    """The lines without their ends. A carriage return right before a line feed belongs to the end.
    """
    lines = source.replace('\r\n', '\n').split('\n')
    return lines if lines[-1] else lines[:-1]


@dataclass
class Source:
    """The text that tokens are read off, and the first error of the lines."""
    code: str
    lines: list[str]
    fault: Optional[SourceFault]
    starts: list[int]

    def place(self, offset: int) -> Place:
        line = bisect_right(self.starts, offset)
        start = self.starts[line - 1]
        text = self.lines[line - 1] if line <= len(self.lines) else ''
        return Place(line, column_after(text[:offset - start]))


def first_word(line: str) -> str:
    return line.replace('\t', ' ').split(' ', 1)[0].lower()


def first_bad(line: str, is_ascii: bool) -> Optional[int]:
    """Where the first byte is that the line may not hold: a control byte other than a tab, and
    above 127 if it is to be ASCII.
    """
    for k, byte in enumerate(line):
        if (byte < ' ' and byte != '\t') or byte == '\x7f' or (is_ascii and byte > '\x7f'):
            return k
    return None


def line_faults(line: str, number: int, is_control: bool) -> list[SourceFault]:
    """The errors of one line by itself."""
    faults = []
    bad = first_bad(line, is_control)
    if bad is not None:
        faults.append(SourceFault(errors.Source.BadByte, Place(number, column_after(line[:bad]))))
    if len(line) > MOST_LINE:
        faults.append(SourceFault(errors.Source.LongLine, Place(number, 1)))
    if is_control and first_word(line) not in CONTROLS:
        faults.append(SourceFault(errors.Source.UnknownControl, Place(number, 1)))
    return faults


def is_close(line: str) -> bool:
    return line[:8].lower() == '$offtext'


def read_source(text: str) -> Source:
    """Sorts the lines into code, comments and control lines."""
    lines = split_lines(text)
    last_close = max((number for number, line in enumerate(lines, 1) if is_close(line)), default=0)
    code, faults, inside = [], [], False
    for number, line in enumerate(lines, 1):
        is_control = not inside and line.startswith('$')
        faults += line_faults(line, number, is_control)
        if is_control and first_word(line) == '$ontext':
            inside = True
            if last_close <= number:
                faults.append(SourceFault(errors.Source.OpenText, Place(number, 1)))
            code.append(' ' * len(line))
        elif inside or is_control or line.startswith('*'):
            inside = inside and not is_close(line)
            code.append(' ' * len(line))
        else:
            code.append(line)
    starts = [0]
    for line in code:
        starts.append(starts[-1] + len(line) + 1)
    ends_with_feed = text.endswith('\n')
    if not ends_with_feed and lines:
        starts.pop()
    joined = '\n'.join(code) + ('\n' if ends_with_feed else '')
    first = min(faults, key=lambda fault: (fault.at, fault.code), default=None)
    return Source(joined, lines, first, starts)
