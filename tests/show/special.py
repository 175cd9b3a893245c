"""Tests that no block can state: changed numbers, every error, pages, pipes, large listings."""
import json
import os
import shutil
import subprocess
import sys
from functools import partial
from html.parser import HTMLParser
from typing import Callable, Dict, Iterator, List, Tuple

from blocks import TOP, folder_with, made_by

Test = Callable[[], List[str]]
HERE = os.path.dirname(os.path.abspath(__file__))
PROGRAM = os.path.join(TOP, 'gams25-show')


def read(path: str) -> bytes:
    with open(path, 'rb') as stream:
        return stream.read()


def listing_path(name: str) -> str:
    return os.path.join(TOP if '/' in name else HERE, name)


def changes() -> Iterator[List[str]]:
    """The lines of changes.txt."""
    for line in read(os.path.join(HERE, 'changes.txt')).decode().splitlines():
        if not line.startswith('#'):
            yield [it.strip(' ') for it in line.split(' | ')]


def changed_number(name: str, solve: str, number: str, old: str, new: str, expected: str) -> List[str]:
    """`check` tells that the listing with a changed number is false, and why first."""
    lines = read(listing_path(name)).split(b'\n')
    line = lines[int(number) - 1]
    place = line.rfind(old.encode())
    if place < 0 or old == new:
        return ['line %s has no %s' % (number, old)]
    lines[int(number) - 1] = line[:place] + new.encode() + line[place + len(old):]
    with folder_with({'a.lst': b'\n'.join(lines)}):
        status, output, errors = made_by(['check', '--solve', solve, 'a.lst'])
    told = [] if (status, errors) == (1, '') else ['status: expected 1, is %d; %s' % (status, errors)]
    first = [it.strip() for it in output.splitlines() if not it.startswith('solve ') or 'solves' in it]
    return told + ([] if expected in first[:1] + first[-1:] else ['expected %r, is %r' % (expected, first)])


def unchanged(name: str) -> List[str]:
    """The listings that are changed are verified as they are."""
    with folder_with({'a.lst': read(listing_path(name))}):
        status, output, _ = made_by(['check', '--solve', '1', 'a.lst'])
    return [] if status == 0 and ': verified\n' in output else ['status %d, %r' % (status, output)]


def errors() -> List[Dict[str, object]]:
    found: List[Dict[str, object]] = json.loads(read(os.path.join(TOP, 'show', 'errors.json')).decode())
    return [it for it in found if it['kind'] != 'usage']


def told_error(entry: Dict[str, object]) -> List[str]:
    """An error is shown with its place, its line, what it means and a cause."""
    source = str(entry['wrong'])
    kind = {'save': 'Source'}.get(str(entry['kind']), str(entry['kind']).capitalize())
    line = next((k for k, it in enumerate(source.splitlines(), 1) if it.strip()), 1)
    head = '%s error %s %s at line %d column 1' % (kind, entry['code'], entry['name'], line)
    echo = ''.join('%6d  %s\n' % it for it in enumerate(source.splitlines(), 1))
    status = 3 if kind == 'Execution' else 2
    with folder_with({'a.lst': (echo + '*** %s\nEND status %d solves 0\n' % (head, status)).encode()}):
        ended, output, told = made_by(['a.lst'])
    lines = output.splitlines()
    place = lines.index(head) if head in lines else -1
    expected = ['%6d  %s' % (line, source.splitlines()[line - 1].rstrip()), ' ' * 8 + '^'] if source.strip() else []
    shown = [it.rstrip('… ') for it in lines[place + 1:place + 3]]
    if place < 0 or any(not a.startswith(b) or not b for a, b in zip(expected, shown)):
        return ['the error or its line is not shown: %r' % lines]
    text = ' '.join(' '.join(lines[place + 1:]).split())
    wanted = [str(it['means']) for it in errors() if (it['kind'], it['code']) == (entry['kind'], entry['code'])]
    if not any(' '.join(it.split()) in text for it in wanted) or (entry['causes'] and 'Usual cause: ' not in text):
        return ['its meaning or cause is not shown: %r' % text]
    return [] if (ended, told) == (2, '') else ['status: expected 2, is %d' % ended]


class PageReader(HTMLParser):
    """Reads a page: whether its elements are closed, what it fetches, its pictures and their
    titles."""
    VOID = ('meta', 'rect', 'line', 'circle', 'polyline', 'input')

    def __init__(self) -> None:
        super().__init__()
        self.open: List[str] = []
        self.faults: List[str] = []
        self.pictures: List[Dict[str, str]] = []
        self.names: List[str] = []
        self.words: List[str] = []

    def handle_starttag(self, tag: str, attrs: List[Tuple[str, object]]) -> None:
        given = {key: str(value) for key, value in attrs}
        for key in ('src', 'href', 'action', 'srcset'):
            if key in given and not given[key].startswith('#'):
                self.faults.append('%s fetches %s' % (tag, given[key]))
        if 'id' in given:
            self.names.append(given['id'])
        if tag == 'svg':
            self.pictures.append(given)
        if tag not in ('meta', 'input'):
            self.open.append(tag)

    def handle_startendtag(self, tag: str, attrs: List[Tuple[str, object]]) -> None:
        self.handle_starttag(tag, attrs)
        self.handle_endtag(tag)

    def handle_endtag(self, tag: str) -> None:
        if not self.open or self.open.pop() != tag:
            self.faults.append('</%s> closes nothing' % tag)

    def handle_data(self, data: str) -> None:
        if self.open and self.open[-1] not in ('script', 'style'):
            self.words += data.split()


def page(words: List[str], expected: List[str], pictures: int, ended: int = 0) -> List[str]:
    """A page is well formed and fetches nothing, its pictures have titles, and it shows these
    words."""
    with folder_with({}):
        status, output, told = made_by(['html'] + words)
    reader = PageReader()
    reader.feed(output)
    faults = reader.faults + (['not closed: %s' % reader.open] if reader.open else [])
    if len(set(reader.names)) != len(reader.names):
        faults.append('an id is there twice')
    for it in reader.pictures:
        if it.get('role') != 'img' or any(name not in reader.names for name in it.get('aria-labelledby', 'none').split()):
            faults.append('a picture has no title')
    if len(reader.pictures) != pictures:
        faults.append('expected %d pictures, are %d' % (pictures, len(reader.pictures)))
    text = ' '.join(reader.words)
    faults += ['there is no %r' % it for it in expected if it not in text]
    if (status, told) != (ended, ''):
        faults.append('status: expected %d, is %d; %s' % (ended, status, told))
    return faults


def labels_of_a_page() -> List[str]:
    """Labels and texts that look like elements of a page are texts there."""
    text = (b"     1  set i /'<script>', '&amp;', '</td>'/; parameter p(i);\n---- 1 PARAMETER p\n"
            b'  <script>          1.000\n  &amp;             2.000\n  </td>             3.000\n---- 1 <b>&lt;\nEND status 0 solves 0\n')
    with folder_with({'a.lst': text}):
        status, output, told = made_by(['html', 'a.lst'])
    reader = PageReader()
    reader.feed(output)
    faults = reader.faults + (['not closed: %s' % reader.open] if reader.open else [])
    words = ' '.join(reader.words)
    faults += ['there is no %r' % it for it in ('<script> 1.000', '&amp; 2.000', '</td> 3.000', '<b>&lt;') if it not in words]
    return faults + (['%d scripts' % output.count('<script>')] if output.count('<script>') != 1 else []) \
        + ([told] if (status, told) != (0, '') else [])


def program(words: List[str], given: bytes = b'', **more: object) -> 'subprocess.CompletedProcess[bytes]':
    """A run of the program itself."""
    return subprocess.run([sys.executable, PROGRAM] + words, input=given, stdout=subprocess.PIPE, stderr=subprocess.PIPE, timeout=60)


def standard_input() -> List[str]:
    """`-` is standard input, and the status is that of the process."""
    ran = program(['-'], read(os.path.join(TOP, 'examples', 'expected', 'mistake.lst')))
    is_right = ran.returncode == 2 and ran.stdout.startswith(b'-: refused: nothing was executed; 0 solves, 1 error\n') and not ran.stderr
    return [] if is_right else ['is %r' % ran]


def closed_pipe() -> List[str]:
    """A reader that closes the pipe early is no error."""
    path = os.path.join(TOP, 'examples', 'expected', 'factory.lst')
    for words in (['csv', path], ['html', path], ['json', path], [path]):
        with subprocess.Popen([sys.executable, PROGRAM] + words, stdout=subprocess.PIPE, stderr=subprocess.PIPE) as ran:
            assert ran.stdout is not None and ran.stderr is not None
            ran.stdout.close()
            told = ran.stderr.read()
            if ran.wait() != 0 or told:
                return ['%s: status %d, %r' % (words[0], ran.returncode, told)]
    return []


def full_disk() -> List[str]:
    """An output that takes nothing is told."""
    if not os.path.exists('/dev/full'):
        return []
    with open('/dev/full', 'wb') as full:
        ran = subprocess.run([sys.executable, PROGRAM, os.path.join(TOP, 'examples', 'expected', 'diet.lst')], stdout=full, stderr=subprocess.PIPE)
    is_right = ran.returncode == 5 and ran.stderr == b'gams25-show: cannot write: No space left on device\n'
    return [] if is_right else ['is %r' % ran]


def large_listing() -> List[str]:
    """A listing of 2 MB takes bounded memory: a table, csv and the glance stay below 48 MB of data.
    """
    code = ('import resource, sys; resource.setrlimit(resource.RLIMIT_DATA, (48 << 20, 48 << 20)); sys.path.insert(0, %r); '
            'from show.cli import main; from show.commands import COMMANDS; sys.exit(main(sys.argv[1:], COMMANDS))' % TOP)
    entries = b''.join(b'  %-9s %14s\n' % (b'i%d.j%d' % (i, j), b'%d.000' % (i * j)) for i in range(1, 401) for j in range(1, 201))
    text = b'     1  set i, j; parameter p(i,j); display p;\n---- 1 PARAMETER p\n' + entries + b'END status 0 solves 0\n'
    last_row = b'i400  79600.000  80000.000\n'
    with folder_with({'a.lst': text}):
        for words, first, last in ((['a.lst'], b'a.lst: every', b'  line 1  parameter p: 80000 entries, from 1.000 to 80000.000\n'),
                                   (['csv', 'a.lst'], b'solve,line,kind,name,label_1,label_2,lower', b'0,1,parameter,p,i400,j200,,80000.000,,,,\r\n'),
                                   (['table', 'p', '--width', '30', 'a.lst'], b'parameter p: 80000 elements\n', last_row)):
            ran = subprocess.run([sys.executable, '-c', code] + words, stdout=subprocess.PIPE, stderr=subprocess.PIPE, timeout=600)
            if ran.returncode or not ran.stdout.startswith(first) or not ran.stdout.endswith(last):
                return ['%s: status %d, %r' % (words, ran.returncode, ran.stderr[-200:] or ran.stdout[-200:])]
    return []


def example(path: str, expected: int) -> List[str]:
    """The glance, records, page and check of an example: their statuses, and no certificate is
    false.
    """
    with folder_with({}):
        made = [(words, made_by(words)) for words in (
            [path], ['csv', '--solve', 'all', path], ['json', path], ['html', path], ['check', '--solve', 'all', path])]
    told = ['%s: expected %d, is %d' % (words[0], expected, it[0]) for words, it in made[:-1] if it[0] != expected]
    status, output, _ = made[-1][1]
    if status not in (0, 2) or ': false' in output:
        told.append(output)
    summary = json.loads(made[2][1][1])
    shown = sum(line.startswith('solve ') for line in output.splitlines())
    return told + ([] if shown == len(summary['solves']) else ['json has %d solves, check %d' % (len(summary['solves']), shown)])


def examples() -> Iterator[Tuple[str, int]]:
    """The listings of the examples, with the status that their statuses of models and their last
    lines mean.
    """
    for folder in ('examples/expected', 'examples/water/expected'):
        for name in sorted(os.listdir(os.path.join(TOP, folder))):
            if name.endswith('.lst'):
                text = read(os.path.join(TOP, folder, name))
                statuses = [it for it in text.split(b'\n') if it.startswith(b'MODEL STATUS ')]
                is_done = b'\nEND status 0 ' in text
                yield '%s/%s' % (folder, name), 2 if not is_done else 1 if set(statuses) - {b'MODEL STATUS 1 Optimal'} else 0


def browser() -> str:
    """A browser that runs without a screen; empty where there is none."""
    return next((path for path in map(shutil.which, ('chromium', 'chromium-browser', 'google-chrome')) if path), '')


def opened_in_browser(path: str) -> List[str]:
    """A page opens in a browser without a message, and its script has run: a table was sorted by a
    click."""
    click = ('<script>document.querySelector("table.sortable th:last-child button").click();'
             'document.title=document.querySelector("table.sortable th:last-child").getAttribute("aria-sort");</script></body>')
    with folder_with({}) as folder:
        _, output, _ = made_by(['html', path])
        for name, text in (('page.html', output), ('clicked.html', output.replace('</body>', click))):
            with open(name, 'w', encoding='utf-8') as stream:
                stream.write(text)
        words = [browser(), '--headless=new', '--no-sandbox', '--disable-gpu', '--enable-logging=stderr', '--window-size=1200,1600',
                 '--user-data-dir=' + os.path.join(folder, 'profile')]
        taken = subprocess.run(words + ['--screenshot=page.png', 'file://%s/page.html' % folder], stderr=subprocess.PIPE, timeout=300)
        dumped = subprocess.run(words + ['--dump-dom', 'file://%s/clicked.html' % folder], stdout=subprocess.PIPE, stderr=subprocess.PIPE, timeout=300)
        told = [it.decode('utf-8', 'replace') for it in taken.stderr.splitlines() if b'CONSOLE' in it]
        if not os.path.exists('page.png') or read('page.png')[:4] != b'\x89PNG':
            told.append('there is no screenshot')
    return told + ([] if b'<title>ascending</title>' in dumped.stdout else ['the table was not sorted'])


def tests() -> Iterator[Tuple[str, Test]]:
    """The tests by their names."""
    for number, it in enumerate(changes(), 1):
        yield 'changed/%02d' % number, partial(changed_number, *it)
    for name in sorted({it[0] for it in changes()}):
        yield 'unchanged/' + name.rsplit('/', 1)[-1], partial(unchanged, name)
    for path, status in examples():
        yield 'examples/' + path.rsplit('/', 1)[-1], partial(example, path, status)
    for number, entry in enumerate(errors(), 1):
        yield 'errors/%02d-%s-%s' % (number, entry['kind'], entry['code']), partial(told_error, entry)
    yield 'html/transport', partial(page, ['examples/expected/transport.lst'], [
        'Every statement was executed; 1 solve, 0 errors', 'solve 1, transport: verified', 'x(san-diego,chicago) 9/1000',
        'demand, marginal', 'i j lower level upper marginal', 'The bound that they prove: 6147/40'], 7)
    yield 'html/infeasible', partial(page, ['--solve', '1', 'examples/expected/infeasible.lst'], [
        'demand(a), demand(b) and demand(c) together ask for at least 120', 'solve 1, ship: verified', 'row demand(a) 1/5'], 1, 1)
    yield 'html/labels_of_a_page', labels_of_a_page
    yield 'html/refused', partial(page, ['examples/expected/mistake.lst'], ['Compile error 1 UnknownName at line 3 column 18'], 0, 2)
    if browser():
        yield 'html/in_a_browser', partial(opened_in_browser, 'examples/expected/transport.lst')
    yield 'program/standard_input', standard_input
    yield 'program/closed_pipe', closed_pipe
    yield 'program/full_disk', full_disk
    yield 'program/large_listing', large_listing
