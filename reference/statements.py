"""Statements, declarations and lists of data (docs/LANGUAGE.md, "Appendix: grammar",
"Declarations", "Statements that act").
"""
import re
from typing import Callable, Optional, TypeVar

from reference import errors
from reference.extended import INF, NA, Value, negated
from reference.grammar import Grammar
from reference.source import Source, SourceFault
from reference.tables import Table
from reference.tokens import BREAK, END, LABEL, LINE, NUMBER, TEXT, WORD, Token, tokens_of
from reference.tree import (Abort, Alias, Assignment, Declaration, Declared, Definition, Display, Item, Loop, ModelItem, Models, Named,
                            Options, Setting, Shown, Solve, Statement, Tree, Word)
from reference.words import LEFT_OUT_WORDS, STATEMENT_WORDS

MOST_RANGE = 65_536

VARIABLE_TYPES = ('free', 'positive', 'negative', 'binary', 'integer', 'sos1', 'sos2')
SENSES = ('=e=', '=l=', '=g=', '=n=')

Read = TypeVar('Read')


def range_form(first: str, last: str) -> Optional[tuple[str, int, range]]:
    """The text of a range, the width of its numbers, and these; None where its ends make none
    (docs/LANGUAGE.md, "set").
    """
    from_end, to_end = split_end(first), split_end(last)
    if from_end is None or to_end is None or from_end[0].lower() != to_end[0].lower():
        return None
    text, low, high = from_end[0], from_end[1], to_end[1]
    is_wide = low.startswith('0') and len(low) > 1
    if is_wide and len(low) != len(high) or not is_wide and high.startswith('0') and len(high) > 1:
        return None
    if not 0 <= int(high) - int(low) < MOST_RANGE:
        return None
    return text, len(low) if is_wide else 1, range(int(low), int(high) + 1)


def split_end(label: str) -> Optional[tuple[str, str]]:
    """The text of a range's end, which does not end in a digit, and its one to nine digits."""
    digits = re.search(r'[0-9]*$', label)[0]
    return (label[:len(label) - len(digits)], digits) if 1 <= len(digits) <= 9 else None


class Statements(Grammar):
    """Reads a program."""

    def program(self) -> Tree:
        while True:
            while self.take_if(';'):
                pass
            if self.token.kind == END:
                return self.tree
            self.tree.statements.append(self.statement())
            if not (self.token.kind == END or self.is_next(';') or self.is_statement_word()):
                raise self.unexpected()

    def is_statement_word(self) -> bool:
        return self.token.kind == WORD and self.token.text in STATEMENT_WORDS

    def statement(self) -> Statement:
        if not self.is_statement_word():
            return self.assignment(may_define=True)
        readers: dict[str, Callable[[], Statement]] = {
            'set': self.sets, 'sets': self.sets, 'parameter': self.parameters, 'parameters': self.parameters, 'scalar': self.scalars,
            'scalars': self.scalars, 'variable': self.variables, 'variables': self.variables, 'equation': self.equations,
            'equations': self.equations, 'model': self.models, 'models': self.models, 'table': self.table, 'alias': self.alias}
        if self.token.text in VARIABLE_TYPES:
            return self.variables()
        if self.token.text in readers:
            return readers[self.token.text]()
        return self.inner()

    def inner(self) -> Statement:
        """A statement that may occur in a loop."""
        readers: dict[str, Callable[[], Statement]] = {
            'display': self.display, 'option': self.options, 'options': self.options, 'solve': self.solve, 'abort': self.abort,
            'loop': self.loop}
        if self.token.kind == WORD and self.token.text in readers:
            return readers[self.token.text]()
        return self.assignment(may_define=False)

    # ---- declarations
    def items(self, item: Callable[[], Read]) -> tuple[Read, ...]:
        """Items with commas or line ends between them. After a line end a statement may begin in
        place of an item.
        """
        items = [item()]
        while self.is_next(',') or self.token.kind == BREAK:
            may_end = self.take().kind == BREAK
            if may_end and self.is_statement_word():
                break
            items.append(item())
        return tuple(items)

    def separated(self, item: Callable[[], Read]) -> tuple[Read, ...]:
        """The items of a list between two `/`, with commas or line ends between them."""
        self.expect('/')
        items = [item()]
        while self.is_next(',') or self.token.kind == BREAK:
            self.take()
            items.append(item())
        self.expect('/')
        return tuple(items)

    def named(self) -> Named:
        return Named(self.token.at, self.name())

    def domain(self) -> tuple[Optional[Named], ...]:
        return self.in_parentheses(self.position) if self.is_next('(') else ()

    def position(self) -> Optional[Named]:
        return None if self.take_if('*') else self.named()

    def sets(self) -> Statement:
        return Declaration(self.take().at, 'set', self.items(lambda: self.with_list(self.element)))

    def parameters(self) -> Statement:
        return Declaration(self.take().at, 'parameter', self.items(lambda: self.with_list(self.entry)))

    def with_list(self, item: Callable[[], Item]) -> Declared:
        named, domain = self.named(), self.domain()
        return Declared(named, domain, self.separated(item) if self.is_next('/') else ())

    def scalars(self) -> Statement:
        return Declaration(self.take().at, 'scalar', self.items(self.scalar))

    def scalar(self) -> Declared:
        named = self.named()
        if not self.take_if('/'):
            return Declared(named)
        at = self.token.at
        value = self.value()
        self.expect('/')
        return Declared(named, (), (Item(at, (), value),))

    def variables(self) -> Statement:
        first = self.take()
        kind = 'free'
        if first.text in VARIABLE_TYPES:
            kind = first.text
            self.expect('variable', 'variables')
        return Declaration(first.at, kind, self.items(lambda: Declared(self.named(), self.domain())))

    def equations(self) -> Statement:
        return Declaration(self.take().at, 'equation', self.items(lambda: Declared(self.named(), self.domain())))

    def models(self) -> Statement:
        return Models(self.take().at, self.items(self.model))

    def model(self) -> ModelItem:
        named = self.named()
        if not self.is_next('/'):
            return ModelItem(named)
        if self.tokens[self.place + 1][:2] == (WORD, 'all'):
            self.place += 2
            self.expect('/')
            return ModelItem(named, True)
        return ModelItem(named, False, self.separated(self.named))

    def alias(self) -> Statement:
        at = self.take().at
        self.open_parenthesis()
        first = self.named()
        self.expect(',')
        second = self.named()
        self.close_parenthesis()
        return Alias(at, first, second)

    # ---- lists
    def value(self) -> Value:
        if self.is_next('na'):
            self.take()
            return NA
        is_negative = self.is_next('-')
        if self.is_next('+', '-'):
            self.take()
        value: Value = INF if self.take_if('inf') else self.number()
        return negated(value) if is_negative else value

    def entry(self) -> Item:
        item = self.element()
        self.take_if('=')
        return item._replace(value=self.value())

    def element(self) -> Item:
        """An element: for each position a label, a range, or several of them in parentheses."""
        at = self.token.at
        parts, bad = [], False
        while True:
            ranges = self.in_parentheses(self.label_range) if self.is_next('(') else (self.label_range(),)
            parts.append(tuple(label for labels, _ in ranges for label in labels))
            bad = bad or any(is_bad for _, is_bad in ranges)
            if not self.take_if('.'):
                return Item(at, tuple(parts), None, bad)

    def label_range(self) -> tuple[list[int], bool]:
        """A label, or the labels of a range; none, and true, where it is no range."""
        first = self.label_token()
        if not self.is_next('*'):
            return [self.label(first.text, first.at)], False
        self.take()
        last = self.label_token()
        form = range_form(first.text, last.text)
        if form is None:
            return [], True
        text, width, numbers = form
        return [self.label('%s%0*d' % (text, width, number), last.at) for number in numbers], False

    def label_token(self) -> Token:
        if self.token.kind != LABEL:
            raise self.unexpected()
        return self.take()

    # ---- tables
    def table(self) -> Statement:
        at = self.take().at
        named = self.named()
        if not self.is_next('('):
            raise self.unexpected()
        domain = self.domain()
        lines = Table(self.label)
        while self.token.kind == LINE:
            token = self.take()
            lines.read(token.text, token.at.line)
        if not (self.token.kind == END or self.is_next(';') or self.is_statement_word()):
            raise self.unexpected()
        if lines.headings is None:
            raise SourceFault(errors.Source.NoHeading, named.at)
        items = tuple(Item(entry.at, tuple((label,) for label in entry.labels), entry.value) for entry in lines.entries)
        return Declaration(at, 'table', (Declared(named, domain, items),))

    # ---- statements that act
    def assignment(self, may_define: bool) -> Statement:
        """An assignment, or a definition: its head has no suffix and no lags, and is followed by
        `..`.
        """
        at = self.token.at
        target = self.reference()
        condition = self.condition_if()
        if self.is_next('..') and may_define and not target.suffix and not any(index.lag for index in target.indices):
            self.take()
            left = self.expression()
            sense = self.expect(*SENSES).text[1].upper()
            return Definition(at, Named(at, target.name), target.indices, condition, left, sense, self.expression())
        self.expect('=')
        return Assignment(at, target, condition, self.expression())

    def shown(self) -> Shown:
        if self.token.kind == TEXT:
            return Shown(self.take().text)
        named = self.named()
        return Shown(None, named, self.suffix())

    def display(self) -> Statement:
        return Display(self.take().at, self.listed(self.shown))

    def abort(self) -> Statement:
        at = self.take().at
        condition = self.condition_if()
        return Abort(at, condition, self.listed(self.shown) if self.token.kind == TEXT or self.is_name() else ())

    def word(self) -> Word:
        """Any word that neither begins a statement nor is left out of the language."""
        if self.token.kind != WORD or self.token.text in STATEMENT_WORDS or self.token.text in LEFT_OUT_WORDS:
            raise self.unexpected()
        token = self.take()
        return Word(token.at, token.text)

    def options(self) -> Statement:
        return Options(self.take().at, self.listed(self.setting))

    def setting(self) -> Setting:
        word = self.word()
        self.expect('=')
        at = self.token.at
        return Setting(word, at, self.number() if self.token.kind == NUMBER else self.word().text)

    def solve(self) -> Statement:
        at = self.take().at
        model = self.named()
        if self.take_if('using'):
            method = self.word()
            direction = self.expect('minimizing', 'maximizing')
            objective = self.named()
        else:
            direction = self.expect('using', 'minimizing', 'maximizing')
            objective = self.named()
            self.expect('using')
            method = self.word()
        return Solve(at, model, method, objective, direction.text == 'maximizing')

    def loop(self) -> Statement:
        at = self.take().at
        self.open_parenthesis()
        control = self.control()
        self.expect(',')
        body = [self.inner()]
        while self.take_if(';'):
            if self.is_next(')'):
                break
            body.append(self.inner())
        self.close_parenthesis()
        return Loop(at, control, tuple(body))


def read_program(source: Source) -> Tree:
    """The program of a source; a `SourceFault` where it is none."""
    return Statements(tokens_of(source), Tree()).program()
