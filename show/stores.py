"""Sequences of tuples that wait outside of memory: in the order of their coming, or sorted."""
import heapq
import marshal
import tempfile
from typing import IO, Any, Iterator, List, Optional, Tuple

Item = Tuple[Any, ...]          # of texts, numbers and tuples of these
MOST = 1 << 14                  # items that wait in memory
BATCH = 128                     # items that are written and read together
SIZE = 8                        # bytes of the length of a batch


class Pages:
    """Runs of items in one temporary file, which is made when the first one is written."""

    def __init__(self) -> None:
        self.stream: Optional[IO[bytes]] = None

    def write(self, items: List[Item]) -> Tuple[int, int]:
        """Writes items at the end of the file, and gives where they begin and end."""
        if self.stream is None:
            self.stream = tempfile.TemporaryFile()
        start = self.stream.seek(0, 2)
        for place in range(0, len(items), BATCH):
            text = marshal.dumps(items[place:place + BATCH])
            self.stream.write(len(text).to_bytes(SIZE, 'big') + text)
        return start, self.stream.tell()

    def read(self, start: int, end: int) -> Iterator[Item]:
        """The items between two places. Several readers may take turns."""
        place = start
        while self.stream is not None and place < end:
            self.stream.seek(place)
            size = int.from_bytes(self.stream.read(SIZE), 'big')
            items = marshal.loads(self.stream.read(size))
            place += SIZE + size
            yield from items


class Store:
    """Items in the order of their coming, which can be read more than once."""

    def __init__(self) -> None:
        self.pages = Pages()
        self.runs: List[Tuple[int, int]] = []
        self.items: List[Item] = []
        self.count = 0

    def put(self, item: Item) -> None:
        self.items.append(item)
        self.count += 1
        if len(self.items) == MOST:
            self.spill()

    def spill(self) -> None:
        """Writes what waits in memory."""
        self.runs.append(self.pages.write(self.items))
        self.items = []

    def __iter__(self) -> Iterator[Item]:
        for start, end in self.runs:
            yield from self.pages.read(start, end)
        yield from self.items


class Sorter(Store):
    """Items that are given back sorted, as often as they are read. Equal neighbours count once."""

    def put(self, item: Item) -> None:
        if not self.items or self.items[-1] != item:
            super().put(item)

    def spill(self) -> None:
        self.items.sort()
        super().spill()

    def __iter__(self) -> Iterator[Item]:
        self.items.sort()
        return heapq.merge(*(self.pages.read(start, end) for start, end in self.runs), self.items)
