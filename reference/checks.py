"""Compile errors of statements (docs/LANGUAGE.md, "Compile errors"; docs/SAVES.md, "Restarting").

Each statement has one error at most: the first by its place, and at one place the one with the
least number. A loop with its body is one statement. Names of a statement with an error count as
declared after it, and its data as not given.
"""
from typing import Iterable, NamedTuple, Optional

from reference import errors
from reference.expression_checks import ExpressionChecks, Scope
from reference.extended import is_whole
from reference.source import Place
from reference.symbols import MOST_ELEMENTS, MOST_POSITIONS, NO_SET, Element, Symbol, dynamic_sets, elements_of, size_of
from reference.tree import (Abort, Alias, Assignment, Declaration, Declared, Definition, Display, Item, Loop, ModelItem, Models, Named,
                            Options, Setting, Shown, Solve, Statement, Tree)

NO_VALUES = ('reslim', 'optcr', 'optca', 'domlim', 'bratio', 'sysout', 'solslack', 'nlp', 'mip', 'rmip', 'dnlp', 'mcp')
MOST_OF_OPTION = {'limrow': 2 ** 31 - 1, 'limcol': 2 ** 31 - 1, 'iterlim': 2 ** 31 - 1, 'decimals': 8}
DISCRETE_TYPES = ('binary', 'integer', 'sos1', 'sos2')
KINDS = {'set': 'set', 'parameter': 'parameter', 'scalar': 'parameter', 'table': 'parameter', 'equation': 'equation'}

Domain = tuple[Optional[Symbol], ...]


class CompileError(NamedTuple):
    at: Place
    code: errors.Compile


def item_fault(item: Item, domain: Domain) -> Optional[errors.Compile]:
    """The error of an item by itself: how many parts it has, a label outside, or a range that is
    none.
    """
    if len(item.parts) != len(domain) or len(item.parts) > MOST_POSITIONS:
        return errors.Compile.WrongArity
    for position, part in zip(domain, item.parts):
        if position is not None and not position.labels.issuperset(part):
            return errors.Compile.DomainOfLabel
    return errors.Compile.DataFault if item.has_bad_range else None


class Checks(ExpressionChecks):
    """Checks the statements of a program in order.

    `first_line` is the first line of a file that is run on top of a save, in the joint source; what
    was declared and assigned before it is saved.
    """

    def __init__(self, tree: Tree, solvers: Optional[Iterable[str]], first_line: int = 0) -> None:
        super().__init__(dynamic_sets(tree.statements, tree.statements))
        self.tree = tree
        self.solvers = solvers
        self.first_line = first_line
        saved = [it for it in tree.statements if it.at.line < first_line]
        self.saved_dynamic = dynamic_sets(tree.statements, saved)
        self.saved_names: set[int] = set()
        self.defined: set[int] = set()

    def all_errors(self) -> list[CompileError]:
        found = []
        for statement in self.tree.statements:
            self.errors = set()
            self.statement(statement, frozenset())
            if statement.at.line < self.first_line:
                self.saved_names = set(self.symbols)
            if self.errors:
                found.append(CompileError(*min(self.errors)))
        return found

    def is_saved(self, statement: Statement, symbol: Optional[Symbol]) -> bool:
        """Whether a statement of the file that is run on top of a save speaks of a saved name."""
        return statement.at.line >= self.first_line and symbol is not None and symbol.name in self.saved_names

    def statement(self, s: Statement, controlled: frozenset[int]) -> None:
        if isinstance(s, Declaration):
            self.declaration(s)
        elif isinstance(s, Alias):
            self.alias(s)
        elif isinstance(s, Assignment):
            self.assignment(s, controlled)
        elif isinstance(s, Definition):
            self.definition(s)
        elif isinstance(s, Models):
            self.models(s)
        elif isinstance(s, Solve):
            self.solve(s)
        elif isinstance(s, Display):
            self.shown(s.shown)
        elif isinstance(s, Abort):
            self.condition(s.condition, s.at, controlled)
            self.shown(s.shown)
        elif isinstance(s, Options):
            for setting in s.settings:
                self.setting(setting)
        elif isinstance(s, Loop):
            inside = self.control(s.control, s.at, controlled)
            for inner in s.body:
                self.statement(inner, inside)

    # ---- declarations
    def declaration(self, s: Declaration) -> None:
        given = []
        if s.kind in DISCRETE_TYPES:
            self.report(s.at, errors.Compile.Discrete)
        for declared in s.declared:
            if len(declared.domain) > MOST_POSITIONS:
                self.report(declared.named.at, errors.Compile.WrongArity)
            domain = tuple(self.position(it) for it in declared.domain)
            if s.kind == 'set' and not domain:
                domain = (None,)
            symbol = self.declared(s, declared, domain)
            if symbol is not None:
                data = self.data(declared, domain)
                symbol.give(data)
                given.append(symbol)
        if self.errors:
            for symbol in given:
                symbol.give({})

    def position(self, named: Optional[Named]) -> Optional[Symbol]:
        """The set of a position of a domain."""
        if named is None:
            return None
        symbol = self.found(named.name, named.at, 'index')
        if symbol and symbol.name in self.dynamic:
            self.report(named.at, errors.Compile.DynamicDomain)
        return symbol or NO_SET

    def declared(self, s: Declaration, declared: Declared, domain: Domain) -> Optional[Symbol]:
        """The symbol of a name that is declared first; None where it was declared before. A free
        variable may take a type.
        """
        name, at = declared.named.name, declared.named.at
        is_variable = s.kind not in KINDS
        known = self.symbols.get(name)
        if known is None:
            self.symbols[name] = Symbol(name, KINDS.get(s.kind, 'variable'), domain, s.kind if is_variable else 'free')
            return self.symbols[name]
        is_retyped = is_variable and known.kind == 'variable' and known.type == 'free'
        if is_variable and known.kind == 'variable' and self.is_saved(s, known):
            self.report(at, errors.Compile.Restart)
        if not is_retyped or domain and domain != known.domain:
            self.report(at, errors.Compile.Redeclared)
        if is_retyped:
            known.type = s.kind
        return None

    def data(self, declared: Declared, domain: Domain) -> dict[Element, object]:
        """The elements of a list with their values; none where an item has an error, at its place.
        """
        data: dict[Element, object] = {}
        count = 0
        for item in declared.items:
            count += size_of(item)
            fault = item_fault(item, domain)
            if fault is None and count > MOST_ELEMENTS:
                fault = errors.Compile.DataFault
            elements = elements_of(item) if fault is None else ()
            for element in elements:
                if element in data:
                    fault = errors.Compile.DataFault
                    break
                data[element] = item.value
            if fault is not None:
                self.report(item.at, fault)
                return {}
        return data

    def alias(self, s: Alias) -> None:
        """One name is a set, and the other is new."""
        first, second = self.symbols.get(s.first.name), self.symbols.get(s.second.name)
        if first is not None and first.kind != 'set':
            self.report(s.first.at, errors.Compile.WrongKind)
        if second is not None and second.kind != 'set':
            self.report(s.second.at, errors.Compile.WrongKind)
        if first is None and second is None:
            self.report(s.first.at, errors.Compile.UnknownName)
        if first is not None and second is not None:
            self.report(s.second.at, errors.Compile.Redeclared)
        for named, other in ((s.first, second), (s.second, first)):
            if named.name not in self.symbols:
                is_set = other is not None and other.kind == 'set'
                self.symbols[named.name] = other if is_set else Symbol(named.name, 'set', (None,))

    def models(self, s: Models) -> None:
        made = []
        for model in s.models:
            equations = self.equations(model)
            if model.named.name in self.symbols:
                self.report(model.named.at, errors.Compile.Redeclared)
            else:
                symbol = self.symbols[model.named.name] = Symbol(model.named.name, 'model')
                symbol.equations = equations
                made.append(symbol)
        if self.errors:
            for symbol in made:
                symbol.equations = []

    def equations(self, model: ModelItem) -> list[int]:
        """The equations of a model in its order, without repetition."""
        if model.has_all:
            return [name for name, symbol in self.symbols.items() if symbol.kind == 'equation']
        for named in model.equations:
            self.found(named.name, named.at, 'equation')
        return list(dict.fromkeys(named.name for named in model.equations))

    # ---- statements that act
    def assignment(self, s: Assignment, controlled: frozenset[int]) -> None:
        target = s.target
        symbol = self.symbols.get(target.name)
        if symbol is None:
            self.report(target.at, errors.Compile.UnknownName)
        elif not self.is_assigned(symbol, target.suffix):
            self.report(target.at, errors.Compile.WrongKind)
        if self.is_saved(s, symbol) and symbol.kind == 'set' and symbol.name not in self.saved_dynamic:
            self.report(target.at, errors.Compile.Restart)
        self.indices(target.at, symbol, target.indices)
        for index in target.indices:
            if index.lag:
                self.left_amount(index.lag, controlled)
        inside = controlled | {index.name for index in target.indices if index.label is None}
        self.condition(s.condition, s.at, inside)
        if symbol is not None and symbol.kind == 'set' and not target.suffix:
            self.set_side(s.right, Scope(s.right.start, inside))
        else:
            self.expression(s.right, Scope(s.right.start, inside))

    def is_assigned(self, symbol: Symbol, suffix: str) -> bool:
        """Whether a name of that kind may be assigned with the suffix."""
        if symbol.kind == 'variable':
            return suffix in ('lo', 'up', 'l', 'm', 'fx')
        return symbol.kind in ('set', 'parameter') and not suffix

    def definition(self, s: Definition) -> None:
        symbol = self.found(s.equation.name, s.equation.at, 'equation')
        if s.equation.name in self.defined:
            self.report(s.equation.at, errors.Compile.DefinedTwice)
        self.defined.add(s.equation.name)
        self.indices(s.equation.at, symbol, s.indices)
        inside = frozenset(index.name for index in s.indices if index.label is None)
        self.condition(s.condition, s.at, inside)
        for side in (s.left, s.right):
            self.expression(side, Scope(side.start, inside, takes_variables=True))

    def solve(self, s: Solve) -> None:
        model = self.found(s.model.name, s.model.at, 'model')
        objective = self.found(s.objective.name, s.objective.at, 'variable')
        if model and not self.defined.issuperset(model.equations):
            self.report(s.model.at, errors.Compile.NotDefined)
        if s.method.text != 'lp':
            self.report(s.method.at, errors.Compile.ModelType)
        if objective and (objective.type != 'free' or objective.domain):
            self.report(s.objective.at, errors.Compile.Objective)

    def shown(self, items: Iterable[Shown]) -> None:
        for item in items:
            if item.named is None:
                continue
            symbol = self.symbols.get(item.named.name)
            if symbol is None:
                self.report(item.named.at, errors.Compile.UnknownName)
            else:
                self.kind(symbol, item.suffix, item.named.at)

    def setting(self, setting: Setting) -> None:
        word, value = setting.word.text, setting.value
        if word in MOST_OF_OPTION:
            is_right = not isinstance(value, str) and is_whole(value) and 0 <= value <= MOST_OF_OPTION[word]
        elif word == 'solprint':
            is_right = value in ('on', 'off')
        elif word == 'lp':
            is_right = isinstance(value, str)
            if is_right and self.solvers is not None and value not in self.solvers:
                self.report(setting.at, errors.Compile.UnknownSolver)
        else:
            is_right = word in NO_VALUES
            if not is_right:
                self.report(setting.word.at, errors.Compile.UnknownName)
                return
        if not is_right:
            self.report(setting.at, errors.Compile.OptionRange)
