"""What the scripts of this folder share: their words, runs of the program in a hostile place, and
what is expected of them.
"""
import argparse
import concurrent.futures
import os
import shutil
import subprocess
import sys
import tempfile
from dataclasses import dataclass, field

TOP = os.path.dirname(os.path.dirname(os.path.dirname(os.path.realpath(__file__))))
HERE = os.path.join(TOP, 'tests', 'hostile')
SECONDS = 120                    # that a run may take
NO_MEMORY = 6                    # the status where the run was out of memory
FILE = 'a.gms'


@dataclass(frozen=True)
class Run:
    """A run of the program: its words, the files where it runs, and how it is to end."""
    name: str
    files: dict                  # a name, and its bytes
    status: int = 0
    shows: bytes = b''           # what its listing, or what it says, has to hold
    words: tuple = (FILE,)


@dataclass(frozen=True)
class Outcome:
    """How a run ended, what it said, and the files that it left."""
    status: int
    says: bytes
    errors: bytes
    files: dict


@dataclass(frozen=True)
class Place:
    """Where a run takes place: what is in its environment, and what is done before it starts."""
    environment: dict = field(default_factory=dict)
    before: object = None        # called in the new process
    output: object = subprocess.PIPE
    hands_on: tuple = ()         # descriptors


def words_of(doc, *options):
    """The words of a script; `doc` says what it does, and an option is its name, its kind, its
    first value and what it is for.
    """
    parser = argparse.ArgumentParser(description=doc, formatter_class=argparse.RawDescriptionHelpFormatter)
    parser.add_argument('program', nargs='?', metavar='PROGRAM', help='what is tried; the program that ./gams25 runs if left out')
    parser.add_argument('--only', default='', metavar='TEXT', help='the sources whose name holds TEXT')
    parser.add_argument('--jobs', type=int, default=os.cpu_count() or 1, metavar='N', help='how many runs go side by side')
    for name, kind, first, said in options:
        parser.add_argument(name, type=kind, default=first, metavar='N' if kind is int else 'FOLDER', help=said)
    words = parser.parse_args()
    words.program = os.path.abspath(words.program) if words.program else own_program()
    return words


def own_program():
    """The program that ./gams25 runs; where there is none, it is built."""
    said = subprocess.run([os.path.join(TOP, '.ci', 'program')], stdout=subprocess.PIPE, check=True, text=True).stdout
    return os.path.join(TOP, said.rstrip('\n'))


def built(source, folder):
    """The library that the C compiler makes of a file here; ends the script where there is no
    compiler.
    """
    compiler = os.environ.get('CC') or next((it for it in ('cc', 'gcc', 'clang') if shutil.which(it)), None)
    if compiler is None:
        sys.exit('there is no C compiler (cc, gcc, clang, or $CC), so nothing was tried')
    library = os.path.join(folder, source.removesuffix('.c') + '.so')
    subprocess.run([compiler, '-O2', '-shared', '-fPIC', '-o', library, os.path.join(HERE, source)], check=True)
    return library


def read(path):
    with open(path, 'rb') as stream:
        return stream.read()


def outcome(program, run, place=Place()):
    """The outcome of a run in a place. A run that does not end is one that a signal killed."""
    with tempfile.TemporaryDirectory(prefix='gams25-hostile-') as folder:
        for name, content in run.files.items():
            with open(os.path.join(folder, name), 'wb') as stream:
                stream.write(content)
        try:
            ended = subprocess.run([program, *run.words], cwd=folder, env=place.environment, stdin=subprocess.DEVNULL, stdout=place.output,
                                   stderr=subprocess.PIPE, preexec_fn=place.before, timeout=SECONDS, pass_fds=place.hands_on)
        except subprocess.TimeoutExpired:
            return Outcome(-9, b'', b'no end in %d seconds' % SECONDS, {})
        return Outcome(ended.returncode, ended.stdout or b'', ended.stderr, {it: read(os.path.join(folder, it)) for it in os.listdir(folder)})


def due_of(program, run, place=Place()):
    """What a run does where nothing is in its way; ends the script where that is not what it is to
    do.
    """
    due = outcome(program, run, place)
    if due.status != run.status or not any(run.shows in it for it in (due.says, *due.files.values())):
        sys.exit('%s: status %d and %r are due, and without any fault it ends with %d and says %r'
                 % (run.name, run.status, run.shows, due.status, due.says[-200:]))
    return due


def differs(found, due):
    """How an outcome is not the one that is expected, or None."""
    for what in ('status', 'says', 'errors', 'files'):
        if getattr(found, what) != getattr(due, what):
            return '%s: due %s, is %s' % (what, brief(getattr(due, what)), brief(getattr(found, what)))
    return None


def is_no_front(found, due, before):
    """How what an outcome left is no prefix of what is expected, or None. `before` are the files
    that were there.
    """
    if not due.says.startswith(found.says):
        return 'it said %s' % brief(found.says)
    if found.errors:
        return 'standard error: %s' % brief(found.errors)
    for name, content in found.files.items():
        whole = due.files.get(name)
        if content != before.get(name) and (whole is None or not whole.startswith(content)):
            return '%s is no front of what is due: %s' % (name, brief(content))
    return None


def brief(what):
    text = repr(what)
    return text if len(text) <= 200 else '%s .. %s' % (text[:60], text[-120:])


def tried(jobs, tries):
    """The answers of these functions, in their order, with n at a time."""
    with concurrent.futures.ThreadPoolExecutor(jobs) as pool:
        yield from pool.map(lambda one: one(), tries)


def end(what, count, told):
    """Says how many were tried and what was wrong, and ends the script: with 0 where nothing was.
    """
    for line in told:
        print(line)
    print('%d %s tried, %d wrong' % (count, what, len(told)))
    sys.exit(1 if told else 0)
