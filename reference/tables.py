"""The lines of a table (docs/LANGUAGE.md, "table")."""
import re
from dataclasses import dataclass
from typing import Callable, NamedTuple, Optional

from reference import errors
from reference.exact import Number
from reference.source import Place, SourceFault, column_after
from reference.texts import TooWide, decimal
from reference.tokens import LABEL_FORM, MOST_LABEL

PART = re.compile(LABEL_FORM.pattern + r'|"[^"]*"|\'[^\']*\'')
WORD = re.compile(r'[^ \t]+')


class Entry(NamedTuple):
    """A number of a table with its place, and the labels of its row and of its heading."""
    at: Place
    labels: tuple[int, ...]
    value: Number


@dataclass
class Heading:
    """A heading: the columns that it takes, the last excluded, and its labels."""
    first: int
    end: int
    labels: tuple[int, ...]


def labels_at(line: str, start: int) -> Optional[tuple[list[str], int]]:
    """The labels, joined by dots, that begin there, and where they end; None where the word is not
    made of labels.
    """
    labels: list[str] = []
    while True:
        part = PART.match(line, start)
        if part is None:
            return None
        text = part[0][1:-1] if part[0][0] in '"\'' else part[0]
        if len(text) > MOST_LABEL:
            return None
        labels.append(text)
        start = part.end()
        if start == len(line) or line[start] in ' \t':
            return labels, start
        if line[start] != '.':
            return None
        start += 1


class Table:
    """Reads the lines in order; `enter` gives the number of a label's text at a place."""

    def __init__(self, enter: Callable[[str, Place], int]) -> None:
        self.enter = enter
        self.headings: Optional[list[Heading]] = None
        self.entries: list[Entry] = []
        self.given: set[tuple[tuple[int, ...], tuple[int, ...]]] = set()

    def read(self, line: str, number: int) -> None:
        word = WORD.search(line)
        if word is None:
            return
        if self.headings is None:
            self.read_headings(line, number, 0)
        elif word[0] == '+':
            self.read_headings(line, number, word.end())
        else:
            self.read_row(line, number)

    def fault(self, code: errors.Source, line: str, number: int, start: int) -> SourceFault:
        return SourceFault(code, Place(number, column_after(line[:start])))

    def labels(self, line: str, number: int, start: int) -> tuple[tuple[int, ...], int]:
        """The labels of a heading or a row, and where they end."""
        found = labels_at(line, start)
        if found is None:
            raise self.fault(errors.Source.BadRow, line, number, start)
        at = Place(number, column_after(line[:start]))
        return tuple(self.enter(text, at) for text in found[0]), found[1]

    def read_headings(self, line: str, number: int, start: int) -> None:
        self.headings = []
        word = WORD.search(line, start)
        while word:
            labels, end = self.labels(line, number, word.start())
            self.headings.append(Heading(column_after(line[:word.start()]), column_after(line[:end]), labels))
            word = WORD.search(line, end)

    def read_row(self, line: str, number: int) -> None:
        row, end = self.labels(line, number, WORD.search(line).start())
        word = WORD.search(line, end)
        while word:
            self.read_number(line, number, word, row)
            word = WORD.search(line, word.end())

    def read_number(self, line: str, number: int, word: 're.Match[str]', row: tuple[int, ...]) -> None:
        """A number belongs to the one heading with which it shares a column, and is the first of
        its row and heading.
        """
        text, is_within = word[0], True
        try:
            value = decimal(text[1:] if text[0] in '+-' else text)
        except TooWide:
            value, is_within = 0, False
        if value is None:
            raise self.fault(errors.Source.BadRow, line, number, word.start())
        first, end = column_after(line[:word.start()]), column_after(line[:word.end()])
        met = [it for it in self.headings or [] if first < it.end and it.first < end]
        if len(met) != 1:
            raise self.fault(errors.Source.TwoColumns if met else errors.Source.NoColumn, line, number, word.start())
        if (row, met[0].labels) in self.given:
            raise self.fault(errors.Source.RepeatedEntry, line, number, word.start())
        if not is_within:
            raise self.fault(errors.Source.BadRow, line, number, word.start())
        self.given.add((row, met[0].labels))
        self.entries.append(Entry(Place(number, first), row + met[0].labels, -value if text[0] == '-' else value))
