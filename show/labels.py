"""Splits elements into labels. A label may itself have commas and dots where the source quotes it.

A listing writes `x(a,b)` for two labels and for the one label 'a,b'. The echoed source decides: a
label with such characters is quoted there, and each reference to `x` shows how many labels it has.
Where several readings remain the element is ambiguous, and is not split.
"""
import re
from typing import Dict, Iterator, List, NamedTuple, Set, Tuple

from .model import Listing

PLAIN = re.compile(r'[A-Za-z0-9][A-Za-z0-9+\-_]*\Z')
QUOTED = re.compile(r'"[^"\n]*"|\'[^\'\n]*\'')
REFERENCE = re.compile(r'\b([A-Za-z]\w*)(?:\s*\.\s*[A-Za-z]+)?\s*\(([^()]*)\)')
WORD = re.compile(r'"([^"]*)"|\'([^\']*)\'|([A-Za-z0-9][A-Za-z0-9+\-_]*)')
RANGE = re.compile(r'\b([A-Za-z0-9+\-_]*?)(\d{1,9})\s*\*\s*([A-Za-z0-9+\-_]*?)(\d{1,9})\b')
LONGEST = 63        # bytes of a label
MOST = 65536        # labels of a range
PLAIN_HINT = '; --plain splits them at each comma and dot'


class Reading(NamedTuple):
    """The labels of an element. Where `is_certain` is false there is one field, with the text as
    printed."""
    labels: Tuple[str, ...]
    is_certain: bool = True


def code_lines(echo: List[bytes]) -> Iterator[str]:
    """The echoed lines without comments."""
    is_code = True
    for raw in echo:
        line = raw.decode('latin-1')
        first = line[:9].lower()
        if first.startswith('$ontext'):
            is_code = False
        elif first.startswith('$offtext'):
            is_code = True
        elif is_code and not first.startswith(('*', '$')):
            yield line


def quoted_texts(line: str) -> Iterator[str]:
    """Each text between two neighbouring equal quotation marks, since an apostrophe in a free text
    may come first."""
    for mark in '"\'':
        places = [k for k, letter in enumerate(line) if letter == mark]
        for a, b in zip(places, places[1:]):
            if b - a - 1 <= LONGEST:
                yield line[a + 1:b]


class Labels:
    """What the echo of a listing tells about labels."""

    def __init__(self, listing: Listing, is_plain: bool = False) -> None:
        # The user says that no label has a comma or a dot.
        self.is_plain = is_plain
        self.is_complete = not listing.is_restarted and bool(listing.echo)
        self.lines = list(code_lines(listing.echo))
        self.special: Set[str] = set()
        for line in self.lines:
            if '"' in line or "'" in line:
                self.special.update(text.lower() for text in quoted_texts(line) if not PLAIN.match(text))
        self.can_end_blank = any(text.endswith(' ') for text in self.special)
        self.known: Dict[str, Set[int]] = {}
        self.has_dimensions = False
        self.places: Dict[str, int] = {}

    def dimensions(self, name: str) -> Set[int]:
        """With how many labels the source writes this symbol; empty where it shows none."""
        if not self.has_dimensions:
            self.has_dimensions = True
            plain = QUOTED.sub('Q', '\n'.join(self.lines))
            for found in REFERENCE.finditer(plain):
                if found[2].strip():
                    self.known.setdefault(found[1].lower(), set()).add(found[2].count(',') + 1)
        return self.known.get(name.lower(), set())

    def place_of(self, label: str) -> int:
        """Where the echo first has a label, or the range that it is of. Labels come in this order;
        it decides ties only."""
        if not self.places:
            for number, line in enumerate(self.lines):
                found = [(it.start(), text) for it in WORD.finditer(line) for text in it.groups() if text]
                for it in RANGE.finditer(line):
                    if it[1].lower() == it[3].lower() and 0 <= int(it[4]) - int(it[2]) < MOST:
                        width = len(it[2]) if it[2].startswith('0') else 0
                        found += [(it.start(), it[1] + str(k).rjust(width, '0')) for k in range(int(it[2]), int(it[4]) + 1)]
                for _, text in sorted(found, key=lambda pair: pair[0]):
                    self.places.setdefault(text.lower(), len(self.places))
            self.places.setdefault('', len(self.places))
        return self.places.get(label.lower(), len(self.places))

    def is_label(self, text: str) -> bool:
        return PLAIN.match(text) is not None or text.lower() in self.special

    def readings(self, parts: List[str], separator: str, most: int) -> List[Tuple[str, ...]]:
        """The ways to join neighbouring parts into at most n labels."""
        if not parts:
            return [()]
        found: List[Tuple[str, ...]] = []
        for count in range(1, len(parts) + 1) if most else ():
            label = separator.join(parts[:count])
            if self.is_label(label):
                found += [(label,) + rest for rest in self.readings(parts[count:], separator, most - 1)]
        return found

    def split(self, name: str, inner: str, separator: str) -> Reading:
        """The labels of an element of a symbol, written with this separator."""
        parts = inner.split(separator)
        if self.is_plain or (self.is_complete and not self.special):
            return Reading(tuple(parts))
        sizes = self.dimensions(name)
        if self.is_complete and not sizes:                     # a set without a domain
            sizes = {1}
        if sizes == {len(parts)}:                              # no label can have a separator
            return Reading(tuple(parts))
        if not self.is_complete:
            return Reading((inner,), len(parts) == 1)
        ways = [way for way in self.readings(parts, separator, max(sizes)) if len(way) in sizes]
        return Reading(ways[0]) if len(ways) == 1 else Reading((inner,), False)

    def of_element(self, element: str) -> Reading:
        """The labels of an element as solves write it: `x`, or `x(a,b)`."""
        name, found, inner = element.partition('(')
        return self.split(name, inner[:-1], ',') if found else Reading(())

    def of_entry(self, name: str, text: str, is_padded: bool = True) -> Reading:
        """The labels of an entry of a display, whose text is padded with blanks except in a set."""
        base = name.partition('.')[0]
        if not is_padded:
            return self.split(base, text, '.')
        trimmed = text.rstrip(' ')
        if not self.can_end_blank:
            return self.split(base, trimmed, '.')
        texts = [trimmed + ' ' * k for k in range(len(text) - len(trimmed) + 1)]
        ways = {way.labels for way in (self.split(base, it, '.') for it in texts)
                if way.is_certain and all(self.is_label(label) for label in way.labels)}
        return Reading(ways.pop()) if len(ways) == 1 else Reading((trimmed,), False)
