"""Runs a scenario by the program and by the reference, each in a separate folder, and compares
all that they write.
"""
import contextlib
import importlib
import io
import os
import subprocess
import sys
import tempfile
import traceback
from dataclasses import dataclass
from typing import Callable, Optional

from tests.random_sources.saves import damaged
from tests.random_sources.scenarios import Scenario, Step

SECONDS = 60            # that a run may take
OUT_OF_MEMORY = 6       # after it part of a listing may exist (docs/LISTING.md, "Statuses")
SHOWN = 160             # bytes of a line that are shown where two differ


@dataclass
class Outcome:
    """What a run left: its exit status, its standard output, and all files of its folder."""
    status: object
    says: bytes
    files: dict[str, bytes]


Runner = Callable[[list[str]], tuple[object, bytes]]


def own_program(top: str) -> str:
    """The program that ./gams25 of the checkout runs."""
    ran = subprocess.run([os.path.join(top, '.ci', 'program')], stdout=subprocess.PIPE, check=True)
    return os.path.join(top, os.fsdecode(ran.stdout.rstrip(b'\n')))


def by_program(path: str) -> Runner:
    """Runs the program at this path in the current folder."""
    def run(words: list[str]) -> tuple[object, bytes]:
        try:
            ran = subprocess.run([path, *words], stdin=subprocess.DEVNULL, stdout=subprocess.PIPE, stderr=subprocess.STDOUT, timeout=SECONDS)
        except subprocess.TimeoutExpired:
            return 'no end in %d seconds' % SECONDS, b''
        return ran.returncode, ran.stdout
    return run


def by_reference(top: str) -> Runner:
    """Runs the reference whose package is in this folder, in this process and in the current
    folder.
    """
    sys.path.insert(0, top)
    main = importlib.import_module('reference.command').main

    def run(words: list[str]) -> tuple[object, bytes]:
        out = io.TextIOWrapper(io.BytesIO(), encoding='utf-8', errors='surrogateescape', newline='')
        try:
            with contextlib.redirect_stdout(out):
                status: object = main(list(words))
        except TimeoutError:
            raise
        except Exception:
            status = 'an exception: ' + traceback.format_exc(limit=-3)
        except SystemExit as ended:
            status = ended.code
        out.flush()
        return status, out.buffer.getvalue()
    return run


def put(step: Step) -> None:
    """Puts the files of a step into the current folder, and a changed copy of the save."""
    for name, text in step.files.items():
        with open(name, 'wb') as stream:
            stream.write(text)
    if step.damage and os.path.exists(step.damage[0]):
        name, copy, seed = step.damage
        with open(name, 'rb') as stream:
            text = stream.read()
        with open(copy, 'wb') as stream:
            stream.write(damaged(text, seed))


def found() -> dict[str, bytes]:
    """The files of the current folder."""
    files = {}
    for name in os.listdir('.'):
        with open(name, 'rb') as stream:
            files[name] = stream.read()
    return files


def outcomes(scenario: Scenario, run: Runner) -> list[Outcome]:
    """What each step leaves."""
    result, before = [], os.getcwd()
    with tempfile.TemporaryDirectory(prefix='gams25-differential-') as folder:
        os.chdir(folder)
        try:
            for step in scenario.steps:
                put(step)
                status, says = run(step.words)
                result.append(Outcome(status, says, found()))
        finally:
            os.chdir(before)
    return result


def shown(line: Optional[bytes]) -> str:
    """A line as it is told."""
    return '(nothing)' if line is None else repr(line[:SHOWN])[1:]


def different_line(what: str, first: bytes, second: bytes) -> str:
    """Where two texts differ first."""
    a, b = first.split(b'\n'), second.split(b'\n')
    place = next((it for it in range(min(len(a), len(b))) if a[it] != b[it]), min(len(a), len(b)))
    sides = [shown(it[place] if place < len(it) else None) for it in (a, b)]
    return '%s line %d: program %s, reference %s' % (what, place + 1, *sides)


def difference(program: list[Outcome], reference: list[Outcome]) -> str:
    """The first difference; the empty text where there is none."""
    for place, (a, b) in enumerate(zip(program, reference), 1):
        start = 'run %d: ' % place
        if a.status == b.status == OUT_OF_MEMORY:
            continue
        for name in sorted({*a.files, *b.files}):
            if name not in a.files or name not in b.files:
                return start + 'file %s is written by the %s alone' % (name, 'program' if name in a.files else 'reference')
            if a.files[name] != b.files[name]:
                return start + different_line(name, a.files[name], b.files[name])
        if a.status != b.status:
            return start + 'status: program %s, reference %s' % (a.status, b.status)
        if a.says != b.says:
            return start + different_line('standard output', a.says, b.says)
    return ''


def compared(scenario: Scenario, program: Runner, reference: Runner) -> tuple[str, list[Outcome]]:
    """The first difference, and what the program left."""
    own = outcomes(scenario, program)
    return difference(own, outcomes(scenario, reference)), own
