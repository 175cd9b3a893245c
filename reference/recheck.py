"""Checks a listing against its source (docs/LISTING.md): `gams25-recheck [--replay] [--restart
SAVE] MODEL LISTING`.

The source is read, checked and run anew. Where it solves, the answer is read off the listing, and
it has to prove itself against the rows derived here (`verdicts.py`); what the listing shows is then
written out from that answer. The first line that differs is false. `--replay` solves each program
again, and so checks the number of pivots, an interrupt and a refused step too.
"""
import re
import sys
from typing import Optional, Sequence

from reference.command import DEEPEST, outcome_of
from reference.exact import Number, number_of
from reference.listing import echo, error_line, last_line, program_lines
from reference.program import Answer, Program, Step
from reference.rows import Generated
from reference.run import Run
from reference.saves import Saved, joint_source, restore
from reference.source import MOST_BYTES, SourceFault
from reference.state import State
from reference.tree import Solve
from reference.verdicts import fault_of, row_sum

USAGE = 'usage: gams25-recheck [--replay] [--restart SAVE] MODEL LISTING'
SOLVER = re.compile(r'SOLVER [A-Za-z0-9_]+ PIVOTS ([0-9]{1,10}) LIMIT [0-9]+')
MODEL = re.compile(r'MODEL STATUS ([0-9]{1,2}) .*')
NAMED = re.compile(r'  (level|marginal|row|point|ray) (.*) = (\S+)')
CROSSED = re.compile(r'  crossed (.*) \S+ \S+')
PHASE = re.compile(r'  phase ([12]) pivots [0-9]+')
STEP = re.compile(r'  step (Standard|Ratio|Exchange|Recover)((?: [a-z]+)? [0-9]+(?: [a-z]+ [0-9]+)*)')
STATUS_WORDS = {1: 'Optimal', 3: 'Unbounded', 4: 'Infeasible', 6: 'Interrupted', 7: 'Interrupted', 13: 'Refused'}
PROVED = ('Optimal', 'Unbounded', 'Infeasible')


class FalseListing(Exception):
    """A line of the listing, counted from 0, that is false, and why."""

    def __init__(self, line: int, why: str) -> None:
        super().__init__(line, why)
        self.line, self.why = line, why


def number_in(text: str, line: int) -> Number:
    number = number_of(text)
    if number is None:
        raise FalseListing(line, '%s is no number' % text)
    return number


class AnswerReader:
    """Reads the answer of a solve off the lines of a listing."""

    def __init__(self, lines: list[str], program: Program, place: int, has_levels: bool) -> None:
        self.lines, self.program = lines, program
        self.place = place                      # of the line `SOLVER`
        self.has_levels = has_levels            # whether levels of a possible point are listed
        self.proof = place                      # of the line `PROOF`, once it was read

    def line(self, place: int) -> str:
        if place >= len(self.lines):
            raise FalseListing(place, 'the listing ends within a solve')
        return self.lines[place]

    def match(self, pattern: 're.Pattern[str]', place: int, form: str) -> 're.Match[str]':
        match = pattern.fullmatch(self.line(place))
        if match is None:
            raise FalseListing(place, '%r is listed, and a line %r is expected' % (self.line(place), form))
        return match

    def read(self, level_lines: int) -> Answer:
        """The answer; `level_lines` is how many lines levels and marginals take."""
        pivots = self.match(SOLVER, self.place, 'SOLVER NAME PIVOTS p LIMIT i')[1]
        status = int(self.match(MODEL, self.place + 2, 'MODEL STATUS m TEXT')[1])
        if status not in STATUS_WORDS:
            raise FalseListing(self.place + 2, 'no answer has the model status %d' % status)
        answer = Answer(STATUS_WORDS[status], phase={6: 1, 7: 2}.get(status, 0))
        answer.pivots = range(int(pivots))
        self.proof = self.place + 4 + (level_lines if self.has_levels and answer.has_point else 0)
        compare(self.lines, self.proof, ['PROOF ' + answer.status])
        self.read_proof(answer, self.proof + 1)
        if answer.has_point:
            answer.row_levels = [row_sum(row, answer.levels) for row in self.program.rows]
        return answer

    def read_proof(self, answer: Answer, start: int) -> None:
        end = start
        while end < len(self.lines) and self.lines[end].startswith('  '):
            end += 1
        if answer.has_point:
            answer.levels = self.numbers(start, end, ('level', 'point'))[0]
        if answer.status == 'Optimal':
            answer.duals, answer.reduced = self.numbers(start, end, ('marginal',), with_rows=True)
        elif answer.status == 'Unbounded':
            answer.ray = self.numbers(start, end, ('ray',))[0]
        elif answer.status == 'Infeasible':
            self.read_contradiction(answer, start, end)
        elif answer.status == 'Refused':
            answer.step = self.step(start)
        elif int(self.match(PHASE, start, '  phase %d pivots p' % answer.phase)[1]) != answer.phase:
            raise FalseListing(start, 'the phase is not that of the model status')

    def read_contradiction(self, answer: Answer, start: int, end: int) -> None:
        crossed = CROSSED.fullmatch(self.line(start))
        if crossed is None:
            answer.duals = self.numbers(start, end, ('row',), with_rows=True)[0]
            return
        names = [column.name for column in self.program.columns]
        if crossed[1] not in names:
            raise FalseListing(start, 'there is no column %s' % crossed[1])
        answer.crossed = names.index(crossed[1])

    def step(self, place: int) -> Step:
        match = self.match(STEP, place, '  step NAME ..')
        return Step(match[1], tuple(map(int, re.findall('[0-9]+', match[2]))))

    def numbers(self, start: int, end: int, words: tuple[str, ...], with_rows: bool = False) -> tuple[list[Number], list[Number]]:
        """The numbers after these words, of the columns, or of the rows and then the columns; what
        is not listed is 0.
        """
        named = (list(self.program.rows) if with_rows else []) + list(self.program.columns)
        numbers, k = [0] * len(named), 0
        for place in range(start, end):
            match = NAMED.fullmatch(self.lines[place])
            if match is None or match[1] not in words:
                continue
            while k < len(named) and named[k].name != match[2]:
                k += 1
            if k == len(named):
                raise FalseListing(place, '%s is no row or column that comes here' % match[2])
            numbers[k] = number_in(match[3], place)
            k += 1
        rows = len(self.program.rows) if with_rows else len(numbers)
        return numbers[:rows], numbers[rows:]


class Recheck(Run):
    """A run that takes its answers from a listing."""

    def __init__(self, state: State, listing: list[str], echoed: int, is_replayed: bool) -> None:
        super().__init__(state)
        self.listing, self.echoed, self.is_replayed = listing, echoed, is_replayed
        self.unproved: list[str] = []

    def compare(self, lines: Sequence[str]) -> None:
        """Compares the next lines with those of the listing."""
        compare(self.listing, self.echoed + len(self.lines), lines)

    def answer(self, s: Solve, made: Generated) -> Answer:
        compare(self.listing, self.echoed, self.lines)
        head = program_lines(self.state, s, made)
        self.compare(head)
        place = self.echoed + len(self.lines) + len(head)
        reader = AnswerReader(self.listing, made.program, place, self.state.settings.solprint)
        answer = reader.read(lines_of_levels(made))
        reason = fault_of(made.program, answer, self.state.settings.iterlim)
        if reason:
            raise FalseListing(reader.proof, 'the answer proves nothing: ' + reason)
        if self.is_replayed:
            return super().answer(s, made)
        if answer.status not in PROVED:
            self.unproved.append('line %d: %s is not checked without --replay' % (place + 1, answer.status))
        return answer


def lines_of_levels(made: Generated) -> int:
    """How many lines levels and marginals take: one for each row and column, and one for each of
    their names.
    """
    keys = made.row_keys + made.column_keys
    return len(keys) + len({key[0] for key in keys})


def compare(listing: list[str], place: int, lines: Sequence[str]) -> None:
    """Raises the first line that differs."""
    for k, right in enumerate(lines, place):
        if k >= len(listing):
            raise FalseListing(k, 'the listing ends, and %r is expected' % right)
        if listing[k] != right:
            raise FalseListing(k, '%r is listed, and %r is right' % (listing[k], right))


def checked(source: str, listing: list[str], saved: Optional[Saved], is_replayed: bool) -> Optional[Run]:
    """Checks a listing against its source, and gives the run where there was one; raises what is
    false first.
    """
    echoed = echo(source, saved.first_line if saved else 1)
    outcome = outcome_of(joint_source(saved, source), saved, lambda state: Recheck(state, listing, len(echoed), is_replayed))
    right = (echoed if outcome.has_echo else []) + outcome.lines
    compare(listing, 0, right)
    if len(listing) > len(right):
        raise FalseListing(len(right), 'nothing may follow the last line')
    return outcome.run


def request_of(arguments: list[str]) -> Optional[tuple[bool, Optional[str], str, str]]:
    """Whether to replay, the save, the source and the listing; None where the arguments are
    refused.
    """
    rest, save = [it for it in arguments if it != '--replay'], None
    if rest[:1] == ['--restart'] and len(rest) > 1:
        save, rest = rest[1], rest[2:]
    return ('--replay' in arguments, save, rest[0], rest[1]) if len(rest) == 2 else None


def read(name: str) -> str:
    with open(name, 'rb') as stream:
        return stream.read().decode('latin-1')


def lines_in(text: str) -> list[str]:
    """The lines of a listing; each ends with a line feed."""
    lines = text.split('\n')
    if lines.pop():
        raise FalseListing(len(lines), 'the last line does not end')
    return lines


def verdict(source: str, text: str, save: Optional[str], is_replayed: bool) -> list[str]:
    """The lines that are printed of a right listing."""
    lines = lines_in(text)
    try:
        saved = restore(save) if save is not None else None
    except SourceFault as fault:
        compare(lines, 0, [error_line(fault), last_line(2, 0)])
        return ['%d lines, no solve' % len(lines)]
    run = checked(source, lines, saved, is_replayed)
    solves = len(run.solved) if run else 0
    return (run.unproved if isinstance(run, Recheck) else []) + ['right: %d lines, %d solves' % (len(lines), solves)]


def main(arguments: list[str]) -> int:
    """0 where the listing is right, 1 where it is false, and 2 where nothing can be checked."""
    sys.setrecursionlimit(DEEPEST)
    request = request_of(arguments)
    if request is None:
        print(USAGE, file=sys.stderr)
        return 2
    is_replayed, save, model, listing = request
    try:
        texts = [read(model)[:MOST_BYTES + 1], read(listing)] + ([read(save)] if save else [])
        printed = verdict(texts[0], texts[1], texts[2] if save else None, is_replayed)
    except (OSError, MemoryError) as fault:
        print('gams25-recheck: %s' % (fault or 'out of memory'), file=sys.stderr)
        return 2
    except FalseListing as false:
        print('%s: line %d is false: %s' % (listing, false.line + 1, false.why))
        return 1
    for line in printed:
        print('%s: %s' % (listing, line))
    return 0
