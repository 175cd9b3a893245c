"""The dictionary simplex method over Python's fractions, with the limit of numbers, as
docs/internals/SOLVER.md says it and by the plainest means.

It is independent of the program: `solves` compares what both make of the same linear programs.
"""
from dataclasses import dataclass, field
from fractions import Fraction
from math import gcd

MOST = 2**127 - 1
ZERO, ONE = Fraction(0), Fraction(1)


class DoesNotFit(Exception):
    """A step whose result is past the limit: its argument is the step."""


def fits(x):
    return max(abs(x.numerator), x.denominator) <= MOST


def within(x, step):
    if not fits(x):
        raise DoesNotFit(step)
    return x


def total(x, y, step):
    """A sum, where each number on the way is within the limit."""
    shared = gcd(x.denominator, y.denominator)
    left, right = x.numerator*(y.denominator//shared), y.numerator*(x.denominator//shared)
    below = (x.denominator//shared)*(y.denominator//gcd(left + right, shared))
    if max(abs(left), abs(right), abs(left + right), below) > MOST:
        raise DoesNotFit(step)
    return x + y


@dataclass(frozen=True)
class Program:
    """A linear program: bounds of columns, None where there is none; rows of a sense, a right side
    and entries by column.
    """
    columns: list
    rows: list
    objective: int
    maximize: bool


@dataclass
class Shift:
    """How variables determine a column: a bound and one of them, or two."""
    kind: str                    # 'lower', 'upper' or 'free'
    variable: int
    bound: object                # the bound, or the second variable


@dataclass
class Walk:
    """The way from a program to its answer, by the rule of this name."""
    program: Program
    rule: str
    limit: int
    pivots: int = 0
    # Its name, and what belongs to it: the crossed column, the phase, the step.
    end: tuple = ()
    shifts: list = field(default_factory=list)
    # Of each standard row: the row of the program, or None and the column that it bounds.
    origins: list = field(default_factory=list)

    def run(self):
        for column, (lower, upper) in enumerate(self.program.columns):
            if lower is not None and upper is not None and lower > upper:
                self.end = 'Infeasible', column
                return self
        try:
            self.begin()
            self.search()
        except DoesNotFit as stop:
            self.end = 'Refused', stop.args[0]
        return self

    # --- the standard form, as the first dictionary ---

    def begin(self):
        number = 0
        for lower, upper in self.program.columns:
            number += 1
            kind = 'lower' if lower is not None else 'upper' if upper is not None else 'free'
            self.shifts.append(Shift(kind, number, {'lower': lower, 'upper': upper, 'free': number + 1}[kind]))
            number += kind == 'free'
        self.own = number
        self.constants, self.rows = [], []
        for place, (sense, right, entries) in enumerate(self.program.rows):
            if sense != 'N':
                self.push_row(place, sense, right, entries)
        for column, (lower, upper) in enumerate(self.program.columns):
            if lower is not None and upper is not None:
                step = 'Standard row %d column %d part 1' % (len(self.rows) + 1, column + 1)
                self.push(total(upper, -lower, step), {self.shifts[column].variable: ONE}, (None, column))
        self.basic = [number + 1 + k for k in range(len(self.rows))]
        self.others = set(range(1, number + 1))
        self.variables = number + len(self.rows) + 1
        sign, shift = ONE if self.program.maximize else -ONE, self.shifts[self.program.objective]
        self.gain = ZERO if shift.kind == 'free' else sign*shift.bound
        self.costs = {shift.variable: -sign if shift.kind == 'upper' else sign}
        if shift.kind == 'free':
            self.costs[shift.bound] = -sign

    def push(self, constant, row, origin):
        self.constants.append(constant)
        self.rows.append(row)
        self.origins.append(origin)

    def push_row(self, place, sense, right, entries):
        row, at = {}, len(self.rows) + 1
        for column in sorted(entries):
            shift, number = self.shifts[column], entries[column]
            row[shift.variable] = -number if shift.kind == 'upper' else number
            if shift.kind == 'free':
                row[shift.bound] = -number
            else:
                taken = within(number*shift.bound, 'Standard row %d column %d part 0' % (at, column + 1))
                right = total(right, -taken, 'Standard row %d column %d part 1' % (at, column + 1))
        if sense in 'LE':
            self.push(right, row, (place, None))
        if sense in 'GE':
            self.push(-right, {variable: -number for variable, number in row.items()}, (place, None))

    # --- pivots ---

    def exchanged(self, place, constant, row, factor, turned, leaving, sign=-1):
        """A row, or the objective, without its multiple of the pivot row."""
        step = lambda column, part: 'Exchange %d row %d column %d part %d' % (self.pivots + 1, place + 1, column, part)
        constant = total(constant, sign*within(factor*turned[0], step(0, 0)), step(0, 1))
        new = {}
        for variable, number in turned[1].items():
            taken = within(factor*number, step(variable + 1, 0))
            new[variable] = total(ZERO if variable == leaving else row.get(variable, ZERO), -taken, step(variable + 1, 1))
        return constant, new

    def pivot(self, entering, place):
        leaving, divisor = self.basic[place], self.rows[place][entering]
        step = lambda column: 'Exchange %d row %d column %d part 0' % (self.pivots + 1, place + 1, column)
        constant, row = within(self.constants[place]/divisor, step(0)), {}
        for variable in sorted(self.others - {entering} | {leaving}):
            number = ONE if variable == leaving else self.rows[place].get(variable, ZERO)
            row[variable] = within(number/divisor, step(variable + 1))
        turned, made = (constant, row), []
        for k, (old_constant, old) in enumerate(zip(self.constants, self.rows)):
            made.append(turned if k == place else self.exchanged(k, old_constant, old, old.get(entering, ZERO), turned, leaving))
        self.gain, self.costs = self.exchanged(len(self.rows), self.gain, self.costs, self.costs.get(entering, ZERO), turned, leaving, 1)
        self.constants, self.rows = [constant for constant, _ in made], [dict(row) for _, row in made]
        self.others = self.others - {entering} | {leaving}
        self.basic[place] = entering
        self.pivots += 1
        if leaving == 0:
            self.others.discard(0)
            for row in [*self.rows, self.costs]:
                row.pop(0, None)

    def in_phase_1(self):
        return 0 in self.basic

    def price(self, variable):
        """The number by which a variable improves, where it is above 0."""
        priced = self.rows[self.basic.index(0)] if self.in_phase_1() else self.costs
        return priced.get(variable, ZERO)

    def leaves(self, entering, limiting):
        """The row that gives way."""
        ratios = [within(self.constants[k]/self.rows[k][entering], 'Ratio %d row %d' % (self.pivots + 1, k + 1)) for k in limiting]
        return min((ratio, self.basic[k], k) for ratio, k in zip(ratios, limiting))[2]

    def open(self):
        for row in self.rows:
            row[0] = -ONE
        self.others.add(0)
        self.pivot(0, min(range(len(self.rows)), key=lambda k: (self.constants[k], self.basic[k])))

    def search(self):
        if any(constant < 0 for constant in self.constants):
            if self.limit == 0:
                self.end = 'Interrupted', 1
                return
            self.open()
        idle = 0                 # pivots without gain, on end
        while True:
            improving = sorted(it for it in self.others if self.price(it) > 0)
            if not improving:
                return self.finish('Infeasible' if self.in_phase_1() else 'Optimal')
            by_least = self.rule == 'bland' or idle >= self.variables
            entering = improving[0] if by_least else min(improving, key=lambda it: (-self.price(it), it))
            limiting = [k for k, row in enumerate(self.rows) if row.get(entering, ZERO) > 0]
            if not limiting:
                return self.finish('Unbounded')
            if self.pivots == self.limit:
                return self.finish('Interrupted', 1 if self.in_phase_1() else 2)
            place, was = self.leaves(entering, limiting), self.in_phase_1()
            idle = 0 if self.constants[place] else idle + 1
            self.pivot(entering, place)
            idle = 0 if was and not self.in_phase_1() else idle

    # --- recovery ---

    def finish(self, end, phase=None):
        self.end = end, phase
        if end != 'Infeasible' and phase != 1:
            self.tell_levels()
        if end in ('Optimal', 'Infeasible'):
            self.tell_duals()

    def amount(self, variable):
        return self.constants[self.basic.index(variable)] if variable in self.basic else ZERO

    def tell_levels(self):
        self.levels = []
        for column, shift in enumerate(self.shifts):
            amount, step = self.amount(shift.variable), 'Recover 0 index %d entry 0 part 1' % column
            if shift.kind == 'free':
                self.levels.append(total(amount, -self.amount(shift.bound), step))
            else:
                self.levels.append(total(shift.bound, amount if shift.kind == 'lower' else -amount, step))
        for place, (_, _, entries) in enumerate(self.program.rows):
            level = ZERO
            for k, column in enumerate(sorted(entries)):
                step = 'Recover 1 index %d entry %d part %%d' % (place, k)
                level = total(level, within(entries[column]*self.levels[column], step % 0), step % 1)

    def tell_duals(self):
        row = self.costs if self.end[0] == 'Optimal' else self.rows[self.basic.index(0)]
        own = {}
        for k, (place, _) in enumerate(self.origins):
            own.setdefault(place, []).append(-row.get(self.own + 1 + k, ZERO))
        sign = 1 if self.end[0] == 'Optimal' and self.program.maximize else -1
        self.duals = []
        for place, (sense, _, _) in enumerate(self.program.rows):
            first, *second = own.get(place, [ZERO])
            dual = -first if sense == 'G' else total(first, -second[0], 'Recover 2 index %d entry 0 part 1' % place) if second else first
            self.duals.append(sign*dual)

    def bound(self):
        """The dual bound; the number of its first step that does not fit, as a whole number."""
        count = -1

        def counted(step, *operands):
            nonlocal count
            count += 1
            return step(*operands, count)
        try:
            bound, reduced = ZERO, []
            for column in range(len(self.program.columns)):
                left = ONE if self.end[0] == 'Optimal' and column == self.program.objective else ZERO
                for (sense, _, entries), dual in zip(self.program.rows, self.duals):
                    if sense != 'N' and column in entries:
                        left = counted(total, left, -counted(within, dual*entries[column]))
                reduced.append(left)
            for (_, right, _), dual in zip(self.program.rows, self.duals):
                if dual:
                    bound = counted(total, bound, counted(within, dual*right))
            for left, (lower, upper) in zip(reduced, self.program.columns):
                if left:
                    above = (left > 0) != (self.end[0] == 'Optimal' and self.program.maximize)
                    bound = counted(total, bound, counted(within, left*(lower if above else upper)))
            return bound
        except DoesNotFit as stop:
            return stop.args[0]
