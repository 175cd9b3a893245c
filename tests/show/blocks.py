"""Blocks of *.cases: files, runs of gams25-show on them, and what each run prints."""
import contextlib
import io
import os
import re
import shlex
import sys
import tempfile
from dataclasses import dataclass, field
from typing import Dict, Iterator, List, Tuple

from pages import facts_of
from show.cli import main
from show.commands import COMMANDS

TOP = os.path.dirname(os.path.dirname(os.path.dirname(os.path.abspath(__file__))))
PART = re.compile(rb'^(--|<<) (.*)\n', re.M)
EXIT = re.compile(r'exit (\d+)\n\Z')
WIDTH = '80'                    # of the terminal, where a run names none


@dataclass
class Run:
    """A run: its arguments, and what is expected of it."""
    words: List[str]
    output: List[str]           # parts of standard output, between which any lines may come
    errors: str
    status: int


@dataclass
class Case:
    """Files, and runs on them."""
    name: str
    files: Dict[str, bytes] = field(default_factory=dict)
    runs: List[Run] = field(default_factory=list)


def unescaped(text: bytes) -> bytes:
    return text.decode('unicode_escape').encode('latin-1')


def run_of(words: bytes, expected: bytes) -> Run:
    """The run of a block: lines that begin with `!! ` are expected on standard error."""
    text = expected.rstrip(b'\n').decode() + '\n' if expected.strip(b'\n') else ''
    ended = EXIT.search(text)
    text = text[:ended.start()] if ended else text
    lines = text.splitlines(True)
    output = ''.join(it for it in lines if not it.startswith('!! '))
    errors = ''.join(it[3:] for it in lines if it.startswith('!! '))
    return Run(shlex.split(words.decode()), re.split(r'^\.\.\.\n', output, flags=re.M), errors, int(ended[1]) if ended else 0)


def cases_in(name: str, path: str) -> Iterator[Case]:
    """The cases of a file."""
    with open(path, 'rb') as stream:
        blocks = re.split(rb'^== ', stream.read(), flags=re.M)[1:]
    for block in blocks:
        head, _, rest = block.partition(b'\n')
        title = head.decode().strip()
        case = Case('%s/%s' % (name, title))
        _, *parts = PART.split(rest)
        for mark, words, text in zip(parts[::3], parts[1::3], parts[2::3]):
            if mark == b'--':
                case.runs.append(run_of(words, text))
            else:
                file, *marks = words.decode().split()
                case.files[file] = unescaped(text) if marks == ['escaped'] else text
        if not case.runs:
            sys.exit('%s is no case' % case.name)
        yield case


@contextlib.contextmanager
def folder_with(files: Dict[str, bytes]) -> Iterator[str]:
    """A folder with these files and the examples, in which the run is."""
    before = os.getcwd()
    with tempfile.TemporaryDirectory(prefix='gams25-show-') as folder:
        for name, text in files.items():
            with open(os.path.join(folder, name), 'wb') as stream:
                stream.write(text)
        os.symlink(os.path.join(TOP, 'examples'), os.path.join(folder, 'examples'))
        os.chdir(folder)
        try:
            yield folder
        finally:
            os.chdir(before)


def made_by(words: List[str]) -> Tuple[int, str, str]:
    """The status, the output and the messages of a run. `facts` is `html`, and tells what the page
    shows."""
    if words[:1] == ['facts']:
        status, page, errors = made_by(['html'] + words[1:])
        return status, facts_of(page), errors
    output, errors = io.StringIO(newline=''), io.StringIO(newline='')
    os.environ['COLUMNS'] = WIDTH
    with contextlib.redirect_stdout(output), contextlib.redirect_stderr(errors):
        status = main(words, COMMANDS)
    return status, output.getvalue(), errors.getvalue()


def fits(parts: List[str], found: str) -> bool:
    """Whether a text has these parts in turn, with nothing before the first and after the last."""
    if len(parts) == 1:
        return parts[0] == found
    if not found.startswith(parts[0]) or not found.endswith(parts[-1]):
        return False
    place = len(parts[0])
    for part in parts[1:-1]:
        place = found.find(part, place)
        if place < 0:
            return False
        place += len(part)
    return len(found) - len(parts[-1]) >= place


def difference(what: str, expected: str, found: str) -> str:
    """The first line where two texts differ."""
    a, b = expected.split('\n'), found.split('\n')
    k = next((k for k in range(min(len(a), len(b))) if a[k] != b[k]), min(len(a), len(b)))
    return '%s line %d: expected %r, is %r' % (what, k + 1, a[k] if k < len(a) else None, b[k] if k < len(b) else None)


def faults_of(case: Case) -> List[str]:
    """Where the runs of a case do not print what is expected."""
    with folder_with(case.files):
        for number, run in enumerate(case.runs, 1):
            status, output, errors = made_by(run.words)
            told: List[str] = []
            output = output.replace('\r\n', '\n')
            if status != run.status:
                told.append('status: expected %d, is %d' % (run.status, status))
            if not fits(run.output, output):
                told.append(difference('output', '...\n'.join(run.output), output))
            if errors != run.errors:
                told.append(difference('messages', run.errors, errors))
            if told:
                return ['run %d' % number] + told
    return []
