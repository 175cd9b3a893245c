"""The values of expressions (docs/LANGUAGE.md, "Expressions", "Execution errors"; docs/NUMBERS.md).

A binding gives each controlled set its label, in the order in which they were controlled. Operands
are computed from the left, conditions after `$` before their operand, and the first fault stops.
"""
from itertools import product
from typing import Callable, Collection, Iterable, Iterator, Optional

from reference import errors
from reference.extended import (FUNCTIONS, RELATIONS, StepFault, Value, added, divided, greater, is_whole, lesser,
                                multiplied, negated, power, subtracted)
from reference.source import Place
from reference.state import State
from reference.symbols import Element, Symbol, combined
from reference.tree import (Call, Chain, Constant, Control, Count, Expression, Fold, Guarded, Index, Membership, Negative, Not, Reference)

Binding = dict[int, int]

MOST_IN_DOMAIN = 16_777_216
MOST_COUNTED = 2 ** 64 - 1

STEPS: dict[str, Callable[[Value, Value], Value]] = {'+': added, '-': subtracted, '*': multiplied, '/': divided, '**': power}
FOLDS = {'sum': added, 'prod': multiplied, 'smin': lesser, 'smax': greater}


class Stop(Exception):
    """A fault that stops the run: the error, its place, the controlled sets there, and perhaps a
    count.
    """

    def __init__(self, code: errors.Execution, at: Place, binding: Binding, count: Optional[int] = None) -> None:
        super().__init__(code, at)
        self.code, self.at, self.binding, self.count = code, at, binding, count


def checked_size(sizes: Iterable[int], at: Place, binding: Binding) -> None:
    """Sets have at most 16,777,216 elements together, whatever the condition is."""
    count = 1
    for size in sizes:
        count *= size
    if count > MOST_IN_DOMAIN:
        raise Stop(errors.Execution.DomainSize, at, binding, min(count, MOST_COUNTED))


def factors(condition: Optional[Expression]) -> Iterator[Expression]:
    """What has to be other than 0 for a condition to hold, in the order in which it is computed."""
    if isinstance(condition, Chain) and condition.level == 'and':
        for part in condition.parts:
            yield from factors(part.operand)
    elif isinstance(condition, Guarded):
        for guard in reversed(condition.guards):
            yield from factors(guard)
        yield from factors(condition.operand)
    elif condition is not None:
        yield condition


def matched(indices: tuple[Index, ...], element: Element, names: tuple[int, ...], binding: Binding) -> Optional[Binding]:
    """The labels that the names have where indices lead to an element; None where they cannot."""
    given: Binding = {}
    for index, label in zip(indices, element):
        expected = index.label if index.label is not None else given.get(index.name, binding.get(index.name))
        if expected is not None and expected != label:
            return None
        if index.label is None and index.name in names:
            given[index.name] = label
    return given


class Evaluator:
    """Computes in a state."""

    def __init__(self, state: State) -> None:
        self.state = state
        self.by_type: dict[type, Callable[..., Value]] = {
            Constant: lambda e, binding: e.value, Reference: self.reference, Count: self.count, Call: self.call, Fold: self.fold,
            Negative: lambda e, binding: negated(self.value(e.operand, binding)), Chain: self.chain,
            Not: lambda e, binding: int(not self.holds(e.operand, binding)), Guarded: self.guarded}

    def value(self, e: Expression, binding: Binding) -> Value:
        return self.by_type[type(e)](e, binding)

    def holds(self, e: Optional[Expression], binding: Binding) -> bool:
        """Whether a condition holds: its value is not the number 0. NA holds."""
        return e is None or self.value(e, binding) != 0

    def step(self, operator: Callable[..., Value], operands: tuple[Value, ...], at: Place, binding: Binding) -> Value:
        """A step, whose fault has that place and that binding."""
        try:
            return operator(*operands)
        except StepFault as fault:
            raise Stop(fault.code, at, binding) from None

    # ---- references
    def reference(self, e: Reference, binding: Binding) -> Value:
        """The entry of an element; 0 where a lag goes outside of its set. A set is 1 for its
        members.
        """
        symbol = self.state.symbols[e.name]
        element = self.element(e.indices, binding)
        if element is None:
            return 0
        if symbol.kind == 'parameter':
            return self.state.value(e.name, element)
        if symbol.kind == 'set':
            return int(element in self.state.members[symbol.name])
        if symbol.kind == 'model':
            return self.state.statuses[e.name][e.suffix == 'solvestat']
        return getattr(self.state.entry(symbol, element), e.suffix)

    def element(self, indices: Iterable[Index], binding: Binding) -> Optional[Element]:
        """The element that indices lead to, or None outside of a set; all amounts of lags are
        computed.
        """
        labels = [self.index(index, binding) for index in indices]
        return None if None in labels else tuple(labels)

    def index(self, index: Index, binding: Binding) -> Optional[int]:
        if index.label is not None:
            return index.label
        if not index.lag:
            return binding[index.name]
        amount = self.value(index.lag.amount, binding)
        if not is_whole(amount):
            raise Stop(errors.Execution.LagNotWhole, index.lag.at, binding)
        return self.lagged(self.state.symbols[index.name], binding[index.name], index.lag.operator, int(amount))

    def lagged(self, symbol: Symbol, label: int, operator: str, amount: int) -> Optional[int]:
        """The label that many places later or earlier; `++` and `--` go round."""
        members = self.state.member_list(symbol)
        place = self.state.position(symbol, label) + (amount if operator[0] == '+' else -amount)
        if len(operator) == 2:
            place %= len(members)
        return members[place][0] if 0 <= place < len(members) else None

    def count(self, e: Count, binding: Binding) -> Value:
        symbol = self.state.symbols[e.name]
        if e.word == 'card':
            return len(self.state.members[symbol.name])
        return self.state.position(symbol, binding[e.name]) + 1

    # ---- steps
    def chain(self, e: Chain, binding: Binding) -> Value:
        if e.level == 'and':
            return int(all(self.holds(part.operand, binding) for part in e.parts))
        if e.level == 'or':
            return self.either(e, binding)
        left = self.value(e.parts[0].operand, binding)
        for operator, operand in e.parts[1:]:
            right = self.value(operand, binding)
            if e.level == 'relation':
                left = int(RELATIONS[operator](left, right))
            else:
                left = self.step(STEPS[operator], (left, right), operand.start, binding)
        return left

    def either(self, e: Chain, binding: Binding) -> Value:
        """`or` leaves its right operand where the part before it holds; `xor` takes both."""
        holds = self.holds(e.parts[0].operand, binding)
        for operator, operand in e.parts[1:]:
            if operator == 'xor':
                holds = holds != self.holds(operand, binding)
            else:
                holds = holds or self.holds(operand, binding)
        return int(holds)

    def guarded(self, e: Guarded, binding: Binding) -> Value:
        """Conditions are computed from the last to the first; where one does not hold the value is
        0.
        """
        return self.value(e.operand, binding) if self.guards_hold(e, binding) else 0

    def guards_hold(self, e: Guarded, binding: Binding) -> bool:
        return all(self.holds(guard, binding) for guard in reversed(e.guards))

    def call(self, e: Call, binding: Binding) -> Value:
        arguments = tuple(self.value(argument, binding) for argument in e.arguments)
        function = FUNCTIONS[e.function]
        if e.function not in ('min', 'max'):
            return self.step(function, arguments, e.at, binding)
        value = arguments[0]
        for argument in arguments[1:]:
            value = function(value, argument)
        return value

    def fold(self, e: Fold, binding: Binding) -> Value:
        """Of a body and what came before it the step is taken before the next body is computed, at
        the fold's own place.
        """
        inside = self.domain(e.control, e.at, binding)
        if e.word in ('smin', 'smax') and not inside:
            raise Stop(errors.Execution.EmptyExtreme, e.at, binding)
        value: Optional[Value] = {'sum': 0, 'prod': 1}.get(e.word)
        for inner in inside:
            body = self.value(e.body, inner)
            value = body if value is None else self.step(FOLDS[e.word], (value, body), e.at, binding)
        return value

    # ---- domains
    def domain(self, control: Control, at: Place, binding: Binding) -> list[Binding]:
        """The binding of each element of the sets for which the condition holds, in the order of
        labels.
        """
        members = [self.state.member_list(self.state.symbols[name]) for name in control.names]
        checked_size(map(len, members), at, binding)
        found = []
        for labels in self.candidates(control, members, binding):
            inner = dict(binding)
            inner.update(zip(control.names, labels))
            if self.holds(control.condition, inner):
                found.append(inner)
        return found

    def candidates(self, control: Control, members: list[list[Element]], binding: Binding) -> Iterable[Element]:
        """The elements of the sets in order; without those at which a leading factor of the
        condition is 0.

        Nothing depends on which factor leads: it and those before it are read without a fault, so
        at 0 the condition does not hold.
        """
        leader = self.leader(control.condition)
        if leader is None:
            return combined(members)
        found: set[Element] = set()
        for element in self.stored(leader):
            given = matched(leader.indices, element, control.names, binding)
            if given is not None:
                choices = [[given[name]] if name in given else [it[0] for it in part] for name, part in zip(control.names, members)]
                if all((given[name],) in self.state.members[self.state.symbols[name].name] for name in given):
                    found.update(product(*choices))
        return sorted(found)

    def leader(self, condition: Optional[Expression]) -> Optional[Reference]:
        """Of the sets and parameters that are read first the one with the fewest elements."""
        best: Optional[Reference] = None
        for factor in factors(condition):
            if isinstance(factor, Constant):
                continue
            if not isinstance(factor, Reference) or factor.suffix or any(index.lag for index in factor.indices):
                break
            if best is None or len(self.stored(factor)) < len(self.stored(best)):
                best = factor
        return best

    def stored(self, e: Reference) -> Collection[Element]:
        """The elements at which a set or a parameter is not 0."""
        symbol = self.state.symbols[e.name]
        return self.state.members[symbol.name] if symbol.kind == 'set' else self.state.values[symbol.name]

    # ---- the right side of a set
    def is_member(self, e: Expression, binding: Binding) -> bool:
        """`+` is in either, `-` in the left and not in the right, `*` in both. All parts are
        computed, except an operand whose condition fails.
        """
        if isinstance(e, Membership):
            return e.is_yes
        if isinstance(e, Negative):
            return self.is_member(e.operand, binding)
        if isinstance(e, Not):
            return not self.is_member(e.operand, binding)
        if isinstance(e, Guarded):
            return self.guards_hold(e, binding) and self.is_member(e.operand, binding)
        if isinstance(e, Chain):
            holds = self.is_member(e.parts[0].operand, binding)
            for operator, operand in e.parts[1:]:
                right = self.is_member(operand, binding)
                holds = {'+': holds or right, '-': holds and not right, '*': holds and right}[operator]
            return holds
        return self.value(e, binding) != 0
