"""The order of labels, found from the order in which elements come."""
import heapq
from typing import Callable, Dict, Iterable, List, Optional, Set, Tuple

Key = Tuple[str, ...]
# Where a label comes first; it decides what the elements leave open.
Place = Callable[[str], int]
MOST_PAIRS = 1 << 17              # of neighbours; of a symbol with more, places alone decide


class Order:
    """The labels of one position of a symbol."""

    def __init__(self) -> None:
        self.number: Dict[str, int] = {}
        self.pairs: Set[Tuple[int, int]] = set()

    def put(self, label: str, before: Optional[str]) -> None:
        """Takes a label, and the one that comes before it in an element that is else the same."""
        number = self.number.setdefault(label, len(self.number))
        if before is not None and before != label and len(self.pairs) < MOST_PAIRS:
            self.pairs.add((self.number[before], number))

    def labels(self, place: Place) -> List[str]:
        """All labels in one order that the elements keep."""
        labels = list(self.number)
        ranks = [(place(label), number) for number, label in enumerate(labels)]
        by_place = [labels[number] for _, number in sorted(ranks)]
        if len(self.pairs) == MOST_PAIRS or all(ranks[a] < ranks[b] for a, b in self.pairs):
            return by_place
        after: Dict[int, List[int]] = {}
        waiting: Dict[int, int] = {}
        for a, b in self.pairs:
            after.setdefault(a, []).append(b)
            waiting[b] = waiting.get(b, 0) + 1
        ready = [rank for rank in ranks if rank[1] not in waiting]
        heapq.heapify(ready)
        found: List[str] = []
        while ready:
            _, number = heapq.heappop(ready)
            found.append(labels[number])
            for following in after.get(number, ()):
                waiting[following] -= 1
                if not waiting[following]:
                    heapq.heappush(ready, ranks[following])
        return found if len(found) == len(labels) else by_place


class Orders:
    """The labels of all positions of a symbol, whose elements come in their order."""

    def __init__(self) -> None:
        self.of: List[Order] = []
        self.last: Key = ()

    def put(self, key: Key) -> None:
        """Takes the labels of the next element."""
        while len(self.of) < len(key):
            self.of.append(Order())
        is_same = True
        for position, label in enumerate(key):
            before = self.last[position] if is_same and position < len(self.last) else None
            self.of[position].put(label, before)
            is_same = is_same and before == label
        self.last = key


def label_orders(keys: Iterable[Key], place: Place) -> List[List[str]]:
    """For each position its labels, in an order that all elements keep."""
    orders = Orders()
    for key in keys:
        orders.put(key)
    return [order.labels(place) for order in orders.of]
