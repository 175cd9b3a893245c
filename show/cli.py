"""The command line: reads arguments, runs a command and gives the exit status."""
import os
import sys
from dataclasses import dataclass, field
from typing import Callable, Dict, List, Optional, Tuple

from . import VERSION
from .model import Problem
from .output import is_piped_away, prepare, say, warn
from .words import DONE, USAGE, WRITE_FAULT

HELP = """\
usage: gams25-show LISTING                   the run at a glance
       gams25-show table NAME LISTING        a variable, an equation or a displayed symbol as a table
       gams25-show csv [NAME..] LISTING      one record an element, for spreadsheets
       gams25-show json [NAME..] LISTING     the same records as JSON
       gams25-show diff LISTING LISTING      what changed between two scenarios
       gams25-show why LISTING               the reason of the answer, in sentences
       gams25-show check LISTING             verifies the certificate in exact fractions
       gams25-show html LISTING              a page with tables and charts

options:
  --solve K            the solve of this number; the last one where it is left out
                       (csv, json, check: also `all`)
  --rows I,K           table: positions of the labels in rows, as numbers or names of sets
  --columns J          table: positions of the labels in columns
  --level, --marginal, --lower, --upper
                       table: the number to show; the level where none is given
  --plain              table, csv, json, html: says that no label has a comma or a dot, where
                       a restarted run does not show the source that has the labels
  --width N            glance, table: columns of the output in place of the terminal's
  --help, --version

LISTING is a listing of gams25, or - for standard input.

exit status:
  0  all solves are optimal and there is no error
  1  some solve is not optimal
  2  the source was refused, or the run stopped
  3  there is no listing of gams25
  4  the arguments are wrong
  5  the output cannot be written
  check: 0 verified, 1 false, 2 not decidable"""

FIGURES = ('level', 'marginal', 'lower', 'upper')
VALUED = ('solve', 'rows', 'columns', 'width')
COMMON = ('help', 'version')
FLAGS = FIGURES + COMMON + ('plain',)


@dataclass
class Request:
    """What the arguments request."""
    command: str
    words: List[str] = field(default_factory=list)
    options: Dict[str, str] = field(default_factory=dict)

    @property
    def solve(self) -> Optional[int]:
        """The number of the chosen solve; none for the last one."""
        text = self.options.get('solve')
        if text is None:
            return None
        if not text.isdigit():
            raise Problem('--solve expects the number of a solve, not %r' % text, USAGE)
        return int(text)

    @property
    def is_all(self) -> bool:
        return self.options.get('solve') == 'all'


@dataclass(frozen=True)
class Command:
    """A command: what runs it, how many words it takes, and its options."""
    run: Callable[[Request], int]
    least: int
    most: int
    expected: str
    options: Tuple[str, ...] = ()


def split_words(words: List[str]) -> Request:
    """Splits arguments into words and options, before their meaning is known."""
    request = Request('')
    rest = iter(words)
    for word in rest:
        if word == '--':
            request.words += rest
        elif word.startswith('--'):
            name, found, value = word[2:].partition('=')
            if name in VALUED:
                value = value if found else next(rest, '')
                if not value:
                    raise Problem('--%s expects a value' % name, USAGE)
            elif found:
                raise Problem('--%s takes no value' % name, USAGE)
            elif name not in FLAGS:
                raise Problem('there is no option --%s; gams25-show --help lists them' % name, USAGE)
            if name in request.options:
                raise Problem('--%s is given twice' % name, USAGE)
            request.options[name] = value
        elif word.startswith('-') and word != '-':
            raise Problem('there is no option %s; gams25-show --help lists them' % word, USAGE)
        else:
            request.words.append(word)
    return request


def request_of(words: List[str], commands: Dict[str, Command]) -> Request:
    """The request of these arguments. A first word that is no command is the listing of a
    glance."""
    request = split_words(words)
    if set(COMMON) & set(request.options):
        return request
    if request.words and request.words[0] in commands:
        request.command = request.words.pop(0)
    elif len(request.words) > 1 and request.words[1] in commands:      # LISTING COMMAND ..
        listing = request.words.pop(0)
        request.command = request.words.pop(0)
        request.words.append(listing)
    else:
        request.command = 'glance'
    command = commands[request.command]
    if not command.least <= len(request.words) <= command.most:
        name = 'gams25-show' if request.command == 'glance' else request.command
        raise Problem('%s expects %s' % (name, command.expected), USAGE)
    for name in request.options:
        if name not in command.options:
            raise Problem('%s takes no option --%s' % (request.command, name), USAGE)
    if request.options.get('width') is not None:
        if not request.options['width'].isdigit() or int(request.options['width']) < 20:
            raise Problem('--width expects a number from 20, not %r' % request.options['width'], USAGE)
        os.environ['COLUMNS'] = request.options['width']
    return request


def listing_last(words: List[str]) -> Tuple[List[str], str]:
    """The other words and the listing, which comes last, or first where only the first word is a
    file."""
    if len(words) > 1 and words[-1] != '-' and not os.path.exists(words[-1]) and os.path.exists(words[0]):
        return words[1:], words[0]
    return words[:-1], words[-1]


def run(words: List[str], commands: Dict[str, Command]) -> int:
    """Runs the command of these arguments."""
    try:
        request = request_of(words, commands)
        if 'help' in request.options:
            say([HELP])
            return DONE
        if 'version' in request.options:
            say(['gams25-show %s' % VERSION])
            return DONE
        return commands[request.command].run(request)
    except Problem as problem:
        warn(str(problem))
        return problem.status


def main(words: List[str], commands: Dict[str, Command]) -> int:
    """Runs the command, and takes a closed pipe as no error."""
    prepare()
    try:
        status = run(words, commands)
        sys.stdout.flush()
        return status
    except BrokenPipeError:
        is_piped_away()
        return DONE
    except KeyboardInterrupt:
        is_piped_away()
        return 130
    except OSError as fault:
        is_piped_away()
        sys.stderr.write('gams25-show: cannot write: %s\n' % fault.strerror)
        return WRITE_FAULT

