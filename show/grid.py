"""Lays a table out within a width, row by row; what does not fit into memory waits outside of it.
"""
from itertools import groupby
from typing import Callable, Iterable, Iterator, List, Sequence, Tuple

from .output import cut, width_of
from .stores import Item, Sorter, Store

Texts = Callable[[Item], List[str]]       # the labels of a place
LEAST_LABEL = 8         # places that a label keeps in a narrow terminal
GAP = '  '


def right(text: str, size: int) -> str:
    """A text at the right end of a column."""
    return GAP + ' ' * (size - width_of(text)) + text


def fitted(sizes: List[int], width: int) -> List[int]:
    """The widths of the labels of rows, cut where they would take over half of the width."""
    room = max(LEAST_LABEL * len(sizes), width // 2)
    found = list(sizes)
    while sum(found) + len(GAP) * len(found) > room and max(found) > LEAST_LABEL:
        found[found.index(max(found))] -= 1
    return found


class Grid:
    """A table: its cells have a place of a row, a place of a column, and a text. Places are sorted,
    and have as many labels as `depths` says: those of rows, and those of columns."""

    def __init__(self, row_texts: Texts, column_texts: Texts, depths: Tuple[int, int], width: int) -> None:
        self.row_texts, self.column_texts = row_texts, column_texts
        self.sizes, self.depth = [0] * depths[0], depths[1]
        self.width = width
        self.sorted_rows, self.by_column = Sorter(), Sorter()

    def put(self, row: Item, column: Item, text: str) -> None:
        """Takes a cell."""
        self.sorted_rows.put(row)
        self.by_column.put((column, row, text))

    @property
    def margin(self) -> int:
        return sum(self.sizes) + len(GAP) * max(0, len(self.sizes) - 1)

    def measured_rows(self) -> Store:
        """Each row once; sets the widths of their labels."""
        rows = Store()
        for row, _ in groupby(self.sorted_rows):
            rows.put(row)
            for k, text in enumerate(self.row_texts(row)):
                self.sizes[k] = max(self.sizes[k], width_of(text))
        self.sizes = fitted(self.sizes, self.width)
        return rows

    def titles(self, column: Item) -> List[str]:
        most = max(LEAST_LABEL, self.width - self.margin - len(GAP))
        return [cut(text, most) for text in self.column_texts(column)]

    def measured_columns(self) -> Store:
        """Each column once, with the part of the table that it is in and its width. A column that
        is too wide is a part alone."""
        columns = Store()
        room = max(1, self.width - self.margin)
        part = used = 0
        for column, cells in groupby(self.by_column, key=lambda it: it[0]):
            size = max([width_of(text) for text in self.titles(column)] + [width_of(cell[2]) for cell in cells])
            if used and used + len(GAP) + size > room:
                part, used = part + 1, 0
            used += len(GAP) + size
            columns.put((part, column, size))
        return columns

    def in_parts(self, columns: Iterable[Item]) -> Sorter:
        """The cells by part, row and column."""
        found = Sorter()
        rest = iter(columns)
        for column, cells in groupby(self.by_column, key=lambda it: it[0]):
            part = next(rest)[0]
            for _, row, text in cells:
                found.put((part, row, column, text))
        return found

    def head(self, row: Item) -> str:
        """The labels of a row."""
        texts = [cut(text, size) for text, size in zip(self.row_texts(row), self.sizes)]
        return GAP.join(text + ' ' * (size - width_of(text)) for text, size in zip(texts, self.sizes))

    def heading(self, columns: Sequence[Item]) -> Iterator[str]:
        """The lines with the labels of columns."""
        titles = [self.titles(column) for _, column, _ in columns]
        for level in range(self.depth):
            line = ' ' * self.margin + ''.join(right(title[level], it[2]) for title, it in zip(titles, columns))
            yield line.rstrip()

    def lines(self) -> Iterator[str]:
        """The table, numbers right; columns that do not fit beside the others come in further
        parts."""
        rows = self.measured_rows()
        all_columns = self.measured_columns()
        by_row = groupby(self.in_parts(all_columns), key=lambda it: it[:2])
        place, cells = next(by_row, ((-1,), iter(())))
        for part, group in groupby(all_columns, key=lambda it: it[0]):
            columns = list(group)
            if part:
                yield ''
            yield from self.heading(columns)
            for row in rows:
                texts = {}
                if place == (part, row):
                    texts = {column: text for _, _, column, text in cells}
                    place, cells = next(by_row, ((-1,), iter(())))
                line = self.head(row) + ''.join(right(texts.get(column, ''), size) for _, column, size in columns)
                yield line.rstrip()
