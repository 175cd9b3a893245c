"""Makes a scenario that differs smaller, as long as it differs."""
import re
import time
from collections import Counter
from typing import Callable

from tests.random_sources.mistakes import TOKEN
from tests.random_sources.scenarios import Scenario, Step

Test = Callable[[Scenario], bool]
SECONDS = 60.0          # that the search may take


def smaller(scenario: Scenario, differs: Test) -> Scenario:
    """The scenario with fewer steps, then with fewer statements, lines and tokens in each file."""
    end = time.monotonic() + SECONDS
    for place in range(len(scenario.steps) - 1, -1, -1):
        fewer = Scenario(scenario.steps[:place] + scenario.steps[place + 1:], Counter())
        if fewer.steps and differs(fewer):
            scenario = fewer
    for split in (statements, lines, tokens):
        for place, step in enumerate(scenario.steps):
            for name in step.files:
                scenario = with_less(scenario, place, name, split, differs, end)
    return scenario


def statements(text: bytes) -> list[bytes]:
    """The statements, roughly: each with the `;` at its end."""
    return re.findall(rb'[^;]*;|[^;]+\Z', text)


def lines(text: bytes) -> list[bytes]:
    """The lines with their ends."""
    return text.splitlines(keepends=True)


def tokens(text: bytes) -> list[bytes]:
    """The tokens and the blanks between them."""
    return [it.encode('latin-1') for it in TOKEN.findall(text.decode('latin-1'))]


def with_less(scenario: Scenario, place: int, name: str, split: Callable[[bytes], list[bytes]], differs: Test, end: float) -> Scenario:
    """The scenario with parts of one file left out: first halves, then quarters, and at last single
    parts.
    """
    def with_text(text: bytes) -> Scenario:
        step = scenario.steps[place]
        changed = Step(step.words, {**step.files, name: text}, step.damage)
        return Scenario(scenario.steps[:place] + [changed] + scenario.steps[place + 1:], Counter())

    parts = split(scenario.steps[place].files[name])
    size = max(1, len(parts) // 2)
    while time.monotonic() < end:
        start, was = 0, len(parts)
        while start < len(parts) and time.monotonic() < end:
            rest = parts[:start] + parts[start + size:]
            if differs(with_text(b''.join(rest))):
                parts = rest
            else:
                start += size
        if size == 1 and len(parts) == was:
            break
        size = max(1, size // 2)
    return with_text(b''.join(parts))
