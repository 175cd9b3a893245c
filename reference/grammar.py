"""Expressions (docs/LANGUAGE.md, "Appendix: grammar", "Source errors").

One method reads one production. It returns a tree. Where no production continues with the next
token, that token is `Expected`.
"""
from dataclasses import replace
from typing import Callable, NamedTuple, Optional, TypeVar

from reference import errors
from reference.exact import Number
from reference.extended import INF, NA
from reference.source import Place, SourceFault
from reference.texts import TooWide, decimal
from reference.tokens import MOST_LABEL, NUMBER, SYMBOL, TEXT, WORD, Token
from reference.tree import (Call, Chain, Constant, Control, Count, Expression, Fold, Guarded, Index, Lag, Membership, Negative, Not, Part,
                            Reference, Tree)
from reference.words import FUNCTION_ARGUMENTS, LEFT_OUT_FUNCTIONS, LEFT_OUT_WORDS, RESERVED, SUFFIXES

MOST_OPEN = 100

RELATION_WORDS = {'lt': '<', 'le': '<=', 'eq': '=', 'ne': '<>', 'ge': '>=', 'gt': '>'}
LAGS = ('+', '-', '++', '--')


class Level(NamedTuple):
    """A level of the grammar: its name, its operators, what is between them, and whether a sign may
    precede the right operand.
    """
    name: str
    operators: tuple[str, ...]
    below: str
    is_signed: bool = False


LEVELS = {level.name: level for level in (
    Level('or', ('or', 'xor'), 'and'),
    Level('and', ('and',), 'claim'),
    Level('relation', ('<', '<=', '=', '<>', '>=', '>') + tuple(RELATION_WORDS), 'sum'),
    Level('sum', ('+', '-'), 'product'),
    Level('product', ('*', '/'), 'power', is_signed=True),
    Level('power', ('**',), 'guarded', is_signed=True),
)}
FIRST_OPERATORS = {'or': 'or', 'and': 'and', 'relation': '=', 'sum': '+', 'product': '*', 'power': '**'}

Read = TypeVar('Read')


class Grammar:
    """Reads expressions off tokens, and puts their names and labels into a tree."""

    def __init__(self, tokens: list[Token], tree: Tree) -> None:
        self.tokens = tokens
        self.place = 0
        self.tree = tree
        self.open = 0

    # ---- tokens
    @property
    def token(self) -> Token:
        """The next token."""
        return self.tokens[self.place]

    def unexpected(self) -> SourceFault:
        """The fault that no production continues with the next token."""
        is_left_out = self.token.kind == WORD and self.token.text in LEFT_OUT_WORDS
        return SourceFault(errors.Source.NotInProfile if is_left_out else errors.Source.Expected, self.token.at)

    def is_next(self, *texts: str) -> bool:
        """Whether the next token is one of these symbols or words."""
        return self.token.kind in (SYMBOL, WORD) and self.token.text in texts

    def take(self) -> Token:
        token = self.token
        self.place += 1
        return token

    def take_if(self, text: str) -> bool:
        """Takes the next token if it is that symbol or word."""
        if not self.is_next(text):
            return False
        self.place += 1
        return True

    def expect(self, *texts: str) -> Token:
        if not self.is_next(*texts):
            raise self.unexpected()
        return self.take()

    def open_parenthesis(self) -> Token:
        if self.is_next('(') and self.open == MOST_OPEN:
            raise SourceFault(errors.Source.Depth, self.token.at)
        token = self.expect('(')
        self.open += 1
        return token

    def close_parenthesis(self) -> None:
        self.expect(')')
        self.open -= 1

    def listed(self, item: Callable[[], Read]) -> tuple[Read, ...]:
        """Items with commas between them."""
        items = [item()]
        while self.take_if(','):
            items.append(item())
        return tuple(items)

    def in_parentheses(self, item: Callable[[], Read]) -> tuple[Read, ...]:
        self.open_parenthesis()
        items = self.listed(item)
        self.close_parenthesis()
        return items

    # ---- names, labels, numbers
    def is_name(self) -> bool:
        return self.token.kind == WORD and self.token.text not in RESERVED

    def name(self) -> int:
        if not self.is_name():
            raise self.unexpected()
        token = self.take()
        return self.entered(self.tree.names.enter(token.written), token.at)

    def entered(self, place: Optional[int], at: Place) -> int:
        if place is None:
            raise SourceFault(errors.Source.TooManyLabels, at)
        return place

    def label(self, text: str, at: Place) -> int:
        return self.entered(self.tree.labels.enter(text), at)

    def index_text(self) -> int:
        """A text as an index: a label."""
        if self.token.kind != TEXT or len(self.token.text) > MOST_LABEL:
            raise self.unexpected()
        token = self.take()
        return self.label(token.text, token.at)

    def number(self) -> Number:
        if self.token.kind != NUMBER:
            raise self.unexpected()
        token = self.take()
        try:
            return decimal(token.text) or 0
        except TooWide:
            raise SourceFault(errors.Source.Number, token.at) from None

    # ---- levels
    def expression(self) -> Expression:
        return self.level('or')

    def level(self, name: str) -> Expression:
        """The operands of a level with its operators between them; an operand alone is itself."""
        if name not in LEVELS:
            return self.claim() if name == 'claim' else self.guarded()
        level = LEVELS[name]
        first = self.signed(level.below) if name == 'sum' else self.level(level.below)
        parts = [Part(FIRST_OPERATORS[name], first)]
        while self.is_next(*level.operators):
            operator = self.take().text
            operand = self.signed(level.below) if level.is_signed else self.level(level.below)
            parts.append(Part(RELATION_WORDS.get(operator, operator), operand))
        return first if len(parts) == 1 else Chain(first.start, name, tuple(parts))

    def signed(self, below: str) -> Expression:
        """An operand of the level below, perhaps after a sign, which takes the whole of it."""
        if not self.is_next('+', '-'):
            return self.level(below)
        sign = self.take()
        operand = self.level(below)
        return Negative(sign.at, operand) if sign.text == '-' else replace(operand, start=sign.at)

    def claim(self) -> Expression:
        if not self.is_next('not'):
            return self.level('relation')
        at = self.take().at
        return Not(at, self.level('relation'))

    def guarded(self) -> Expression:
        operand = self.operand()
        guards = []
        while self.is_next('$'):
            guards.append(self.condition())
        return Guarded(operand.start, operand, tuple(guards)) if guards else operand

    def condition(self) -> Expression:
        self.expect('$')
        at = self.token.at
        is_not = self.take_if('not')
        operand = self.operand()
        return Not(at, operand) if is_not else operand

    def condition_if(self) -> Optional[Expression]:
        return self.condition() if self.is_next('$') else None

    # ---- operands
    def operand(self) -> Expression:
        token = self.token
        if token.kind == NUMBER:
            return Constant(token.at, self.number())
        if self.is_next('('):
            self.open_parenthesis()
            inner = self.expression()
            self.close_parenthesis()
            return replace(inner, start=token.at)
        if self.is_name():
            return self.reference()
        if self.is_next('inf', 'na'):
            return Constant(self.take().at, INF if token.text == 'inf' else NA)
        if self.is_next('yes', 'no'):
            return Membership(self.take().at, token.text == 'yes')
        if self.is_next('ord', 'card'):
            return self.count()
        if self.is_next('sum', 'prod', 'smin', 'smax'):
            return self.fold()
        if token.kind == WORD and (token.text in FUNCTION_ARGUMENTS or token.text in LEFT_OUT_FUNCTIONS):
            self.take()
            return Call(token.at, token.at, token.text, self.in_parentheses(self.expression))
        raise self.unexpected()

    def reference(self) -> Reference:
        at = self.token.at
        name = self.name()
        suffix = self.suffix()
        indices = self.in_parentheses(self.index) if self.is_next('(') else ()
        return Reference(at, at, name, suffix, indices)

    def suffix(self) -> str:
        return self.expect(*SUFFIXES).text if self.take_if('.') else ''

    def index(self) -> Index:
        if self.token.kind == TEXT:
            return Index(self.index_text())
        name = self.name()
        if not self.is_next(*LAGS):
            return Index(None, name)
        operator = self.take().text
        return Index(None, name, Lag(operator, self.token.at, self.amount()))

    def amount(self) -> Expression:
        """The amount of a lag: a number, a name, or an expression in parentheses."""
        if self.token.kind == NUMBER or self.is_next('('):
            return self.operand()
        at = self.token.at
        return Reference(at, at, self.name(), '', ())

    def count(self) -> Count:
        word = self.take()
        self.open_parenthesis()
        name = self.name()
        self.close_parenthesis()
        return Count(word.at, word.at, word.text, name)

    def fold(self) -> Fold:
        word = self.take()
        self.open_parenthesis()
        control = self.control()
        self.expect(',')
        body = self.expression()
        self.close_parenthesis()
        return Fold(word.at, word.at, word.text, control, body)

    def control(self) -> Control:
        names = self.in_parentheses(self.name) if self.is_next('(') else (self.name(),)
        return Control(names, self.condition_if())
