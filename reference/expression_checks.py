"""Compile errors in expressions (docs/LANGUAGE.md, "Compile errors").

The place of an error is a reference, an `ord` or `card`, a call, a fold, or the amount of a lag. A
part without a place, as `yes` or a condition, has the place of the operand, call, fold,
side or statement around it.
"""
from typing import NamedTuple, Optional

from reference import errors
from reference.extended import is_whole
from reference.source import Place
from reference.symbols import MOST_POSITIONS, NO_SET, Symbol, has_variables, is_below
from reference.tree import (Call, Chain, Constant, Control, Count, Expression, Fold, Guarded, Index, Lag, Membership, Negative, Not, Reference)
from reference.words import FUNCTION_ARGUMENTS

# The suffixes with which a name of a kind is read or displayed.
READ_SUFFIXES = {'set': ('',), 'parameter': ('',), 'variable': ('lo', 'up', 'l', 'm'), 'equation': ('l', 'm'),
                 'model': ('modelstat', 'solvestat')}


class Scope(NamedTuple):
    """What surrounds an expression: the place of what has none, the sets that are controlled, and
    what may occur there.
    """
    at: Place
    controlled: frozenset[int]
    takes_sets: bool = False            # a set with its indices
    takes_variables: bool = False       # a variable without suffix: a side of an equation


class ExpressionChecks:
    """Finds the errors of a statement's expressions; `errors` has those of the statement that is
    checked.
    """

    def __init__(self, dynamic: set[int]) -> None:
        self.symbols: dict[int, Symbol] = {}
        self.dynamic = dynamic
        self.errors: set[tuple[Place, errors.Compile]] = set()

    def report(self, at: Place, code: errors.Compile) -> None:
        self.errors.add((at, code))

    def found(self, name: int, at: Place, kind: str) -> Optional[Symbol]:
        """The symbol of a name that has to be declared, and of this kind; `index` is a set of one
        dimension.
        """
        symbol = self.symbols.get(name)
        if symbol is None:
            self.report(at, errors.Compile.UnknownName)
        elif not (symbol.is_index if kind == 'index' else symbol.kind == kind):
            self.report(at, errors.Compile.WrongKind)
            return None
        return symbol

    def is_ordered(self, symbol: Symbol) -> bool:
        return symbol.name not in self.dynamic and symbol.is_in_order

    # ---- expressions
    def expression(self, e: Expression, scope: Scope) -> None:
        """Checks an expression that is computed, or that is a part of a side of an equation."""
        if isinstance(e, Membership):
            self.report(scope.at, errors.Compile.WrongKind)
        elif isinstance(e, Reference):
            self.reference(e, scope)
        elif isinstance(e, Count):
            self.count(e, scope)
        elif isinstance(e, Call):
            self.call(e, scope)
        elif isinstance(e, Fold):
            self.fold(e, scope)
        elif isinstance(e, Negative):
            self.expression(e.operand, scope._replace(takes_sets=False))
        elif isinstance(e, Chain):
            self.chain(e, scope)
        elif isinstance(e, Not):
            self.expression(e.operand, scope._replace(takes_sets=True, takes_variables=False))
        elif isinstance(e, Guarded):
            self.guards(e, scope)
            self.expression(e.operand, scope._replace(takes_sets=True))

    def guards(self, e: Guarded, scope: Scope) -> None:
        for guard in e.guards:
            self.expression(guard, scope._replace(takes_sets=True, takes_variables=False))

    def chain(self, e: Chain, scope: Scope) -> None:
        if e.level in ('relation', 'and', 'or'):
            inner = scope._replace(takes_sets=e.level != 'relation', takes_variables=False)
            for part in e.parts:
                self.expression(part.operand, inner)
            return
        for part in e.parts:
            self.expression(part.operand, scope._replace(at=part.operand.start, takes_sets=False))
        if scope.takes_variables and e.level != 'sum':
            self.linear(e)

    def linear(self, e: Chain) -> None:
        """Of a product one operand has variables at most, none is divided by, and a power has none.
        """
        has = self.has_variables(e.parts[0].operand)
        for operator, operand in e.parts[1:]:
            has_here = self.has_variables(operand)
            if {'*': has and has_here, '/': has_here, '**': has or has_here}[operator]:
                self.report(operand.start, errors.Compile.Nonlinear)
            has = has or has_here

    def has_variables(self, e: Expression) -> bool:
        return has_variables(e, self.symbols)

    # ---- references
    def reference(self, e: Reference, scope: Scope) -> None:
        symbol = self.symbols.get(e.name)
        if symbol is None:
            self.report(e.at, errors.Compile.UnknownName)
        else:
            self.kind(symbol, e.suffix, e.at, scope)
            if symbol.kind == 'set' and not scope.takes_sets:
                self.report(e.at, errors.Compile.WrongKind)
        self.indices(e.at, symbol, e.indices)
        for index in e.indices:
            self.control_of(index, e.at, scope)

    def kind(self, symbol: Symbol, suffix: str, at: Place, scope: Optional[Scope] = None) -> None:
        """Whether a name of that kind may be read or displayed with the suffix."""
        if symbol.kind == 'variable' and not suffix:
            if scope is None or not scope.takes_variables:
                self.report(at, errors.Compile.Endogenous)
        elif suffix not in READ_SUFFIXES[symbol.kind]:
            self.report(at, errors.Compile.WrongKind)

    def indices(self, at: Place, symbol: Optional[Symbol], indices: tuple[Index, ...]) -> None:
        """Each index is a label of the set of its position, or a set below it. Without a symbol the
        positions are not known.
        """
        domain = symbol.domain if symbol is not None else (None,) * len(indices)
        if symbol is not None and len(domain) != len(indices) or len(indices) > MOST_POSITIONS:
            self.report(at, errors.Compile.WrongArity)
        for index, position in zip(indices, domain + (None,) * len(indices)):
            if index.label is not None:
                if position is not None and index.label not in position.labels:
                    self.report(at, errors.Compile.DomainOfLabel)
                continue
            inner = self.found(index.name, at, 'index')
            if inner and position is not None and (position is NO_SET or not is_below(inner, position)):
                self.report(at, errors.Compile.DomainOfSet)
            if inner and index.lag and not self.is_ordered(inner):
                self.report(at, errors.Compile.NotOrdered)

    def control_of(self, index: Index, at: Place, scope: Scope) -> None:
        """A set that is an index is controlled; the amount of its lag is computed."""
        if index.label is None and index.name not in scope.controlled:
            self.report(at, errors.Compile.Uncontrolled)
        if index.lag:
            self.expression(index.lag.amount, Scope(index.lag.at, scope.controlled))

    def left_amount(self, lag: Lag, controlled: frozenset[int]) -> None:
        """On the left the amount of a lag is a whole number or a scalar."""
        amount = lag.amount
        symbol = self.symbols.get(amount.name) if isinstance(amount, Reference) else None
        is_count = isinstance(amount, Constant) and is_whole(amount.value)
        is_plain = isinstance(amount, Reference) and not amount.suffix and not amount.indices
        is_scalar = is_plain and symbol is not None and symbol.kind == 'parameter' and not symbol.domain
        is_variable = isinstance(amount, Reference) and not amount.suffix and symbol is not None and symbol.kind == 'variable'
        if not (is_count or is_scalar or is_variable):
            self.report(lag.at, errors.Compile.WrongKind)
        self.expression(amount, Scope(lag.at, controlled))

    # ---- ord, card, functions, folds
    def count(self, e: Count, scope: Scope) -> None:
        symbol = self.found(e.name, e.at, 'set')
        if symbol and e.word == 'ord' and e.name not in scope.controlled:
            self.report(e.at, errors.Compile.Uncontrolled)
        if symbol and e.word == 'ord' and not self.is_ordered(symbol):
            self.report(e.at, errors.Compile.NotOrdered)

    def call(self, e: Call, scope: Scope) -> None:
        least, most = FUNCTION_ARGUMENTS.get(e.function, (0, -1))
        if len(e.arguments) < least or most is not None and len(e.arguments) > most:
            self.report(e.at, errors.Compile.Function)
        if scope.takes_variables and any(map(self.has_variables, e.arguments)):
            self.report(e.at, errors.Compile.Nonlinear)
        for argument in e.arguments:
            self.expression(argument, scope._replace(at=e.at, takes_sets=False))

    def fold(self, e: Fold, scope: Scope) -> None:
        controlled = self.control(e.control, e.at, scope.controlled)
        if e.word != 'sum' and scope.takes_variables and self.has_variables(e.body):
            self.report(e.at, errors.Compile.Nonlinear)
        self.expression(e.body, Scope(e.at, controlled, False, scope.takes_variables))

    def control(self, control: Control, at: Place, controlled: frozenset[int]) -> frozenset[int]:
        """Checks the sets that a fold or a loop controls and its condition, and gives what is
        controlled inside.
        """
        if len(control.names) > MOST_POSITIONS:
            self.report(at, errors.Compile.WrongArity)
        for name in control.names:
            self.found(name, at, 'index')
            if name in controlled:
                self.report(at, errors.Compile.ControlledTwice)
            controlled = controlled | {name}
        if control.condition is not None:
            self.condition(control.condition, at, controlled)
        return controlled

    def condition(self, e: Optional[Expression], at: Place, controlled: frozenset[int]) -> None:
        if e is not None:
            self.expression(e, Scope(at, controlled, takes_sets=True))

    # ---- the right side of a set
    def set_side(self, e: Expression, scope: Scope) -> None:
        """It is made of sets with their indices, `yes`, `no`, `+`, `-`, `*`, `not`, parentheses and
        `$`.
        """
        if isinstance(e, Reference):
            symbol = self.symbols.get(e.name)
            if symbol is not None and symbol.kind != 'set' and (e.suffix or symbol.kind != 'variable'):
                self.report(e.at, errors.Compile.WrongKind)
            self.expression(e, scope._replace(takes_sets=True))
        elif isinstance(e, (Negative, Not)):
            self.set_side(e.operand, scope)
        elif isinstance(e, Guarded):
            self.set_side(e.operand, scope)
            self.guards(e, scope)
        elif isinstance(e, Chain) and e.level in ('sum', 'product', 'power'):
            for operator, operand in e.parts:
                self.set_side(operand, scope._replace(at=operand.start))
            wrong = [operand.start for operator, operand in e.parts[1:] if operator in ('/', '**')]
            self.errors.update((at, errors.Compile.WrongKind) for at in wrong)
        elif not isinstance(e, Membership):
            self.report(e.at if isinstance(e, (Call, Fold, Count)) else scope.at, errors.Compile.WrongKind)
            self.expression(e, scope._replace(takes_sets=True))
