"""Sides of equations: numbers, and numbers times variables (docs/LANGUAGE.md, "equation, and its
definition"; docs/internals/DECISIONS.md, "Rows").

A part without variables is computed as any expression, and has to be a number. Of a chain all
before the first part with variables is one such part.
"""
from dataclasses import dataclass, field
from typing import Union

from reference import errors
from reference.exact import Number
from reference.extended import Special, Value, number_step
from reference.source import Place
from reference.symbols import Element, has_variables
from reference.tree import Chain, Expression, Fold, Guarded, Negative, Reference
from reference.values import STEPS, Binding, Evaluator, Stop

Key = tuple[int, Element]


@dataclass
class Form:
    """A constant, and the number of each variable's element where it is not 0."""
    constant: Number = 0
    numbers: dict[Key, Number] = field(default_factory=dict)


def plus(left: Form, right: Form) -> Form:
    """The left form, to which the right one is added: first the constants, then the elements in
    order.
    """
    left.constant = number_step('+', left.constant, right.constant)
    for key in sorted(right.numbers):
        number = number_step('+', left.numbers.pop(key, 0), right.numbers[key])
        if number:
            left.numbers[key] = number
    return left


def minus(left: Form, right: Form) -> Form:
    return plus(left, negative(right))


def negative(form: Form) -> Form:
    return Form(-form.constant, {key: -number for key, number in form.numbers.items()})


def scaled(symbol: str, form: Form, number: Number) -> Form:
    """The form times a number, or divided by one that is not 0."""
    numbers = {key: number_step(symbol, form.numbers[key], number) for key in sorted(form.numbers)}
    return Form(number_step(symbol, form.constant, number), {key: it for key, it in numbers.items() if it})


class Forms(Evaluator):
    """Computes the forms of a state."""

    def has_variables(self, e: Expression) -> bool:
        return has_variables(e, self.state.symbols)

    def number(self, value: Value, at: Place, binding: Binding) -> Number:
        """A part without variables has to be a number."""
        if isinstance(value, Special):
            raise Stop(errors.Execution.Undefined, at, binding)
        return value

    def form(self, e: Expression, binding: Binding) -> Form:
        if not self.has_variables(e):
            return Form(self.number(self.value(e, binding), e.start, binding))
        if isinstance(e, Reference):
            element = self.element(e.indices, binding)
            return Form() if element is None else Form(0, {(e.name, element): 1})
        if isinstance(e, Negative):
            return negative(self.form(e.operand, binding))
        if isinstance(e, Guarded):
            return self.form(e.operand, binding) if self.guards_hold(e, binding) else Form()
        return self.total(e, binding) if isinstance(e, Fold) else self.steps(e, binding)

    def total(self, e: Fold, binding: Binding) -> Form:
        """The sum of the forms of a body."""
        total = Form()
        for inner in self.domain(e.control, e.at, binding):
            total = self.step(plus, (total, self.form(e.body, inner)), e.at, binding)
        return total

    def steps(self, e: Chain, binding: Binding) -> Form:
        """Steps from the left; those before the first part with variables are steps of values."""
        first = e.parts[0].operand
        left: Union[Form, Value] = self.form(first, binding) if self.has_variables(first) else self.value(first, binding)
        for operator, operand in e.parts[1:]:
            if not isinstance(left, Form) and not self.has_variables(operand):
                left = self.step(STEPS[operator], (left, self.value(operand, binding)), operand.start, binding)
                continue
            if not isinstance(left, Form):
                left = Form(self.number(left, first.start, binding))
            left = self.joined(operator, left, operand, binding)
        return left

    def joined(self, operator: str, left: Form, operand: Expression, binding: Binding) -> Form:
        """A step of which one operand has variables."""
        right = self.form(operand, binding)
        if operator in '+-':
            return self.step(plus if operator == '+' else minus, (left, right), operand.start, binding)
        if self.has_variables(operand):
            return self.step(scaled, ('*', right, left.constant), operand.start, binding)
        if operator == '/' and right.constant == 0:
            raise Stop(errors.Execution.Divide, operand.start, binding)
        return self.step(scaled, (operator, left, right.constant), operand.start, binding)
