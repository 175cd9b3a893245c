"""Prints lines, keeps the terminal's width, and takes a closed pipe as the end of the request."""
import os
import shutil
import sys
import unicodedata
from typing import Iterable, List

ELLIPSIS = '…'


def terminal_width() -> int:
    """The columns of the terminal: of the output, or of standard error where that is one; else
    80."""
    if os.environ.get('COLUMNS', '').isdigit():
        return max(20, int(os.environ['COLUMNS']))
    for stream in (sys.__stdout__, sys.__stderr__):
        try:
            if stream is not None and stream.isatty():
                return max(20, os.get_terminal_size(stream.fileno()).columns)
        except (OSError, ValueError):
            continue
    return max(20, shutil.get_terminal_size((80, 24)).columns)


def width_of(text: str) -> int:
    """How many places a text takes in a terminal."""
    if text.isascii():
        return len(text)
    return sum(0 if unicodedata.combining(c) else 2 if unicodedata.east_asian_width(c) in 'WF' else 1 for c in text)


def cut(text: str, width: int) -> str:
    """The text within a width; a longer one ends with an ellipsis."""
    if width_of(text) <= width:
        return text
    kept = ''
    for letter in text:
        if width_of(kept + letter) > width - 1:
            break
        kept += letter
    return kept + ELLIPSIS


def wrapped(text: str, width: int, indent: str = '') -> List[str]:
    """A text in lines within a width; words are not cut."""
    lines: List[str] = []
    line = indent
    for word in text.split():
        if line.strip() and width_of(line) + 1 + width_of(word) > width:
            lines.append(line)
            line = indent
        line += word if line == indent else ' ' + word
    return lines + [line] if line.strip() else lines


def prepare() -> None:
    """Makes standard output and error take every text."""
    for stream in (sys.stdout, sys.stderr):
        if hasattr(stream, 'reconfigure'):
            stream.reconfigure(errors='replace')


def say(lines: Iterable[str]) -> None:
    """Prints lines on standard output."""
    for line in lines:
        sys.stdout.write(line + '\n')


def warn(text: str) -> None:
    """Prints a note on standard error."""
    sys.stdout.flush()
    sys.stderr.write('gams25-show: %s\n' % text)


def is_piped_away() -> None:
    """Leaves standard output closed, so that the end of the program writes nothing more to a closed
    pipe."""
    try:
        os.dup2(os.open(os.devnull, os.O_WRONLY), sys.stdout.fileno())
    except (OSError, ValueError):
        pass
