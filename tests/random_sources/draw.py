"""Draws from a seed, and notes of the productions that were drawn."""
import random
from collections import Counter
from typing import Callable, Sequence, TypeVar

T = TypeVar('T')


class Draw:
    """One seed's draws. `notes` counts the productions of the grammar that a source has."""

    def __init__(self, seed: int) -> None:
        self.random = random.Random(seed)
        self.notes: Counter[str] = Counter()

    def note(self, *productions: str) -> None:
        """Counts productions that are written."""
        self.notes.update(productions)

    def chance(self, part: float) -> bool:
        """True in this part of all draws."""
        return self.random.random() < part

    def between(self, low: int, high: int) -> int:
        """A whole number, both ends included."""
        return self.random.randint(low, high)

    def pick(self, items: Sequence[T]) -> T:
        """One of the items."""
        return self.random.choice(items)

    def some(self, items: Sequence[T], least: int, most: int) -> list[T]:
        """Some of the items, each at most once, in their order."""
        number = min(len(items), self.between(least, most))
        chosen = sorted(self.random.sample(range(len(items)), number))
        return [items[place] for place in chosen]

    def shuffled(self, items: Sequence[T]) -> list[T]:
        """All items in any order."""
        result = list(items)
        self.random.shuffle(result)
        return result

    def weighted(self, *choices: tuple[float, T]) -> T:
        """One of the choices, each as often as its weight."""
        return self.random.choices([it for _, it in choices], [weight for weight, _ in choices])[0]

    def call(self, *choices: tuple[float, Callable[[], T]]) -> T:
        """Calls one of the functions, each as often as its weight."""
        return self.weighted(*choices)()

    def cased(self, word: str) -> str:
        """The word, now and then in other letter case."""
        if self.chance(0.94):
            return word
        return self.pick([word.upper(), word.capitalize(), word.swapcase()])
