"""The parts of single lines of a listing."""
from fractions import Fraction
from typing import Optional, Tuple

from . import events as ev
from .exact import is_fraction, is_value
from .model import Counts, Effort, Error, Figures, Proof, Status

MARKS = ('UNBND', 'NOPT')
PLACES = 14                     # of a number of a display


def error_of(text: str) -> Error:
    """The parts of an error line."""
    found = ev.FAULT.match(text)
    if not found:
        raise ValueError(text)
    rest, _, count = found[6].partition(' count ')
    where = rest[len(' with '):] if rest.startswith(' with ') else ''
    return Error(found[1], int(found[2]), found[3], int(found[4]), int(found[5]), where, count)


def figures_of(text: str) -> Optional[Tuple[str, Figures]]:
    """The element and the numbers of a line of levels."""
    parts = text.rsplit(None, 4)
    mark = ''
    if parts and parts[-1] in MARKS:
        mark = parts[-1]
        parts = text[:-len(mark)].rsplit(None, 4)
    if len(parts) != 5 or not all(is_value(part) for part in parts[1:]):
        return None
    return parts[0][2:] if parts[0].startswith('  ') else parts[0].lstrip(), Figures(*parts[1:], mark)


def entry_of(text: str, is_set: bool) -> Optional[Tuple[str, str]]:
    """The labels and the number of an entry of a display; the padding stays with the labels."""
    if is_set:
        return text[2:], ''
    element, blank, value = text[2:].rpartition(' ')
    padding = max(0, PLACES - len(value))
    if not blank or not is_value(value) or (padding and element[-padding:] != ' ' * padding):
        return None
    return element[:len(element) - padding], value


def exact_line(text: str) -> Optional[Tuple[str, str, Fraction]]:
    """The word, the element and the number of a line `  WORD ELEMENT = V`."""
    head, found, value = text.rpartition(' = ')
    word, _, element = head.strip(' ').partition(' ') if found else ('', '', '')
    if not element or not is_fraction(value):
        return None
    return word, head[len('  ' + word + ' '):], Fraction(value)


def put_proved(proof: Proof, text: str) -> bool:
    """Puts a line of a certificate into it; false where it is none."""
    words = text.split()
    line = exact_line(text)
    if line:
        proof.numbers.setdefault(line[0], {})[line[1]] = line[2]
    elif words[:1] == ['bound'] and len(words) == 2 and is_fraction(words[1]):
        proof.bound = Fraction(words[1])
    elif words[:3] == ['bound', 'not', 'shown,'] and words[-1].isdigit():
        proof.missing = int(words[-1])
    elif words[:1] == ['crossed'] and len(words) >= 4:
        element, lower, upper = text[len('  crossed '):].rsplit(' ', 2)
        if not all(is_fraction(it) or is_value(it) for it in (lower, upper)):
            return False
        proof.crossed = element, lower, upper
    elif words[:1] == ['step']:
        proof.step = ' '.join(words[1:])
    elif words[:1] == ['phase'] and len(words) == 4 and words[1].isdigit() and words[3].isdigit():
        proof.phase = int(words[1]), int(words[3])
    else:
        return False
    return True


def counts_of(text: str) -> Optional[Counts]:
    words = text.split()
    if len(words) != 6 or words[2] != 'COLUMNS' or words[4] != 'NONZEROS':
        return None
    return Counts(int(words[1]), int(words[3]), int(words[5]))


def effort_of(text: str) -> Optional[Effort]:
    words = text.split()
    if len(words) != 6 or words[2] != 'PIVOTS' or words[4] != 'LIMIT':
        return None
    return Effort(words[1], int(words[3]), int(words[5]))


def status_of(text: str) -> Status:
    _, _, code, *rest = text.split(' ', 3)
    return Status(int(code), ' '.join(rest))
