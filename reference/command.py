"""The command line (docs/LISTING.md, "Arguments", "Messages", "Statuses"; docs/internals/DESIGN.md,
"The order of a run").
"""
import os
import sys
from dataclasses import dataclass, field
from typing import Callable, Optional

from reference import errors
from reference.checks import Checks
from reference.choice import SOLVERS
from reference.generator import generated
from reference.listing import echo, error_line, last_line
from reference.ranges import range_lines
from reference.run import Run
from reference.saves import MOST_SAVED, Saved, joint_source, restore, save_text
from reference.source import MOST_BYTES, Place, SourceFault, read_source
from reference.state import State, first_state
from reference.statements import read_program
from reference.texts import rounded
from reference.tree import Tree

USAGE = ('usage: gams25 [--ranges] [--save FILE] [--restart FILE] [--out FILE] FILE | '
         'gams25 [--ranges] [--save FILE] [--out FILE] --generate N')
DONE, USAGE_FAULT, COMPILE, EXECUTION, READ_FAULT, WRITE_FAULT, OUT_OF_MEMORY = 0, 1, 2, 3, 4, 5, 6
VALUED = ('--save', '--restart', '--out', '--generate')
DEEPEST = 20_000


@dataclass
class Request:
    """What the arguments request."""
    file: Optional[str] = None
    values: dict[str, str] = field(default_factory=dict)
    has_ranges: bool = False

    @property
    def output(self) -> str:
        if '--out' in self.values:
            return self.values['--out']
        if self.file is None:
            return 'generate.lst'
        return (self.file[:-4] if self.file.endswith('.gms') else self.file) + '.lst'


def request_of(arguments: list[str]) -> Optional[Request]:
    """The request of the arguments; None where they are refused."""
    request, files, rest = Request(), [], list(arguments)
    try:
        ''.join(arguments).encode('utf-8')
    except UnicodeEncodeError:
        return None
    while rest:
        argument = rest.pop(0)
        name, has_value, value = argument.partition('=')
        if argument == '--':
            files, rest = files + rest, []
        elif argument == '--ranges' and not request.has_ranges:
            request.has_ranges = True
        elif name in VALUED and name not in request.values:
            if not has_value:
                if not rest or rest[0].startswith('-') and rest[0] != '-':
                    return None
                value = rest.pop(0)
            request.values[name] = value
        elif argument.startswith('-') and argument != '-':
            return None
        else:
            files.append(argument)
    return with_file(request, files)


def with_file(request: Request, files: list[str]) -> Optional[Request]:
    """The request with its FILE; None unless exactly one of FILE and `--generate` is given, and
    `--restart` goes with FILE.
    """
    number = request.values.get('--generate')
    if len(files) + (number is not None) != 1:
        return None
    if number is not None and ('--restart' in request.values or number not in map(str, range(1, 31))):
        return None
    request.file = files[0] if files else None
    return request


class Ended(Exception):
    """The end of a run before its closing lines, with its status."""

    def __init__(self, status: int) -> None:
        super().__init__(status)
        self.status = status


def read_file(name: str, most: int) -> str:
    """The bytes of a file, or one more than it may have."""
    try:
        with open(name, 'rb') as stream:
            return stream.read(most + 1).decode('latin-1')
    except (OSError, ValueError):
        say(['cannot read %s' % name], READ_FAULT)
        raise Ended(READ_FAULT) from None


def write_file(name: str, lines: str) -> None:
    try:
        with open(name, 'wb') as stream:
            stream.write(lines.encode('latin-1'))
    except (OSError, ValueError):
        raise Ended(WRITE_FAULT) from None


def say(lines: list[str], status: int) -> int:
    """Prints lines, and gives the status; where it fails, status 1 and 4 stay, and others are a
    write fault.
    """
    try:
        sys.stdout.buffer.write(os.fsencode('\n'.join(lines) + '\n'))
        sys.stdout.buffer.flush()
    except OSError:
        sys.stdout = open(os.devnull, 'w')
        return status if status in (USAGE_FAULT, READ_FAULT) else WRITE_FAULT
    return status


@dataclass
class Outcome:
    """The result of a source: its listing after the echo, its status, and the run where there was
    one.
    """
    lines: list[str]
    status: int
    run: Optional[Run] = None
    has_echo: bool = True


def program_of(source: str) -> Tree:
    """The program of a source, or its first error."""
    if len(source) > MOST_BYTES:
        raise SourceFault(errors.Source.TooLong, Place(1, 1))
    return read_program(read_source(source))


def outcome_of(source: str, saved: Optional[Saved] = None, run_from: Callable[[State], Run] = Run) -> Outcome:
    """Reads, checks and executes a source, which resumes from a save if one is given."""
    first_line = saved.first_line if saved else 0
    try:
        tree = program_of(source)
    except SourceFault as fault:
        return Outcome([error_line(fault), last_line(COMPILE, 0)], COMPILE, has_echo=fault.code != errors.Source.TooLong)
    checks = Checks(tree, SOLVERS, first_line)
    found = checks.all_errors()
    if found:
        return Outcome(list(map(error_line, found)) + [last_line(COMPILE, 0)], COMPILE)
    state = first_state(tree, checks.symbols)
    if saved:
        saved.put_into(state)
    run = run_from(state)
    status = run.all(it for it in tree.statements if it.at.line >= first_line)
    return Outcome(run.lines + [last_line(status, len(run.solved))], status, run)


def closing_lines(request: Request, outcome: Outcome) -> list[str]:
    lines = []
    solves = len(outcome.run.solved) if outcome.run else 0
    if outcome.run and request.has_ranges:
        for number, (program, answer) in enumerate(outcome.run.solved, 1):
            if answer.status == 'Optimal':
                lines += ['ranges of solve %d' % number] + range_lines(program, answer)
    if outcome.run and request.file is None:
        lines.append(generated_line(request.values['--generate'], outcome.run.state, outcome.run))
    return lines + ['status %d, solves %d, output %s' % (outcome.status, solves, request.output)]


def generated_line(size: str, state: State, run: Run) -> str:
    model, objective = state.tree.names.find('t'), state.symbols[state.tree.names.find('z')]
    pivots = sum(len(answer.pivots) for _, answer in run.solved)
    return 'generated %s by %s, model status %d, objective %s, pivots %d' % (
        size, size, state.statuses[model][0], rounded(state.entry(objective, ()).l), pivots)


def restored(request: Request, text: str) -> Saved:
    """The save, or its fault as a listing."""
    try:
        return restore(text)
    except SourceFault as fault:
        write_file(request.output, error_line(fault) + '\n' + last_line(COMPILE, 0) + '\n')
        raise Ended(say(['status 2, solves 0, output ' + request.output], COMPILE)) from None


def answered(request: Request) -> int:
    """Runs a request, and gives its status."""
    saved_text = read_file(request.values['--restart'], MOST_SAVED) if '--restart' in request.values else None
    file = generated(int(request.values['--generate'])) if request.file is None else read_file(request.file, MOST_BYTES)
    saved = restored(request, saved_text) if saved_text is not None else None
    source = joint_source(saved, file)
    write_file(request.output, '')
    outcome = outcome_of(source, saved)
    lines = (echo(file, saved.first_line if saved else 1) if outcome.has_echo else []) + outcome.lines
    write_file(request.output, '\n'.join(lines) + '\n')
    if '--save' in request.values and outcome.status == DONE:
        write_file(request.values['--save'], save_text(source, outcome.run.state))
    return say(closing_lines(request, outcome), outcome.status)


def main(arguments: list[str]) -> int:
    """Runs the command, and gives its exit status."""
    sys.setrecursionlimit(DEEPEST)
    request = request_of(arguments)
    if request is None:
        return say([USAGE], USAGE_FAULT)
    try:
        return answered(request)
    except Ended as end:
        return end.status
    except MemoryError:
        return OUT_OF_MEMORY
