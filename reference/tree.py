"""The tree of a program (docs/LANGUAGE.md, "Appendix: grammar").

Names and labels are numbers, in the order in which the source first has them. `start` of an
expression is its first character, a sign and parentheses before it included; `at` of a part is the
place that errors name.
"""
from dataclasses import dataclass, field
from typing import NamedTuple, Optional, Union

from reference.exact import Number
from reference.extended import Value
from reference.source import Place


@dataclass(frozen=True)
class Expression:
    start: Place


@dataclass(frozen=True)
class Constant(Expression):
    """A number, `inf` or `na`."""
    value: Value


@dataclass(frozen=True)
class Membership(Expression):
    """`yes` or `no`."""
    is_yes: bool


class Lag(NamedTuple):
    """`+`, `-`, `++` or `--`, and the amount with its place."""
    operator: str
    at: Place
    amount: Expression


class Index(NamedTuple):
    """A label, or a set, perhaps with a lag."""
    label: Optional[int]
    name: int = -1
    lag: Optional[Lag] = None


@dataclass(frozen=True)
class Reference(Expression):
    at: Place
    name: int
    suffix: str
    indices: tuple[Index, ...]


@dataclass(frozen=True)
class Count(Expression):
    """`ord` or `card` of a set."""
    at: Place
    word: str
    name: int


@dataclass(frozen=True)
class Call(Expression):
    at: Place
    function: str
    arguments: tuple[Expression, ...]


@dataclass(frozen=True)
class Control:
    """The sets that a fold, a loop or an equation controls, and its condition."""
    names: tuple[int, ...]
    condition: Optional[Expression] = None


@dataclass(frozen=True)
class Fold(Expression):
    """`sum`, `prod`, `smin` or `smax`."""
    at: Place
    word: str
    control: Control
    body: Expression


@dataclass(frozen=True)
class Negative(Expression):
    operand: Expression


class Part(NamedTuple):
    """An operand of a chain with the operator before it; the first operand has `+`, `*` or another
    one without effect.
    """
    operator: str
    operand: Expression


@dataclass(frozen=True)
class Chain(Expression):
    """Steps of one level from the left: `+ -`, `* /`, `**`, relations, `and`, or `or xor`."""
    level: str
    parts: tuple[Part, ...]


@dataclass(frozen=True)
class Not(Expression):
    operand: Expression


@dataclass(frozen=True)
class Guarded(Expression):
    """An operand under conditions."""
    operand: Expression
    guards: tuple[Expression, ...]


class Named(NamedTuple):
    at: Place
    name: int


class Word(NamedTuple):
    at: Place
    text: str


class Item(NamedTuple):
    """An element of a list: for each position its labels; the value in data; whether some range is
    none.
    """
    at: Place
    parts: tuple[tuple[int, ...], ...]
    value: Optional[Value] = None
    has_bad_range: bool = False


class Declared(NamedTuple):
    named: Named
    domain: tuple[Optional[Named], ...] = ()
    items: tuple[Item, ...] = ()


@dataclass(frozen=True)
class Statement:
    at: Place


@dataclass(frozen=True)
class Declaration(Statement):
    """`kind` is set, parameter, table, equation, or a type of variables."""
    kind: str
    declared: tuple[Declared, ...]


@dataclass(frozen=True)
class Alias(Statement):
    first: Named
    second: Named


@dataclass(frozen=True)
class Assignment(Statement):
    target: Reference
    condition: Optional[Expression]
    right: Expression


@dataclass(frozen=True)
class Definition(Statement):
    equation: Named
    indices: tuple[Index, ...]
    condition: Optional[Expression]
    left: Expression
    sense: str
    right: Expression


class ModelItem(NamedTuple):
    named: Named
    has_all: bool = False
    equations: tuple[Named, ...] = ()


@dataclass(frozen=True)
class Models(Statement):
    models: tuple[ModelItem, ...]


@dataclass(frozen=True)
class Solve(Statement):
    model: Named
    method: Word
    objective: Named
    is_maximizing: bool


class Shown(NamedTuple):
    """An item of a display: a text, or a name with its suffix."""
    text: Optional[str]
    named: Optional[Named] = None
    suffix: str = ''


@dataclass(frozen=True)
class Display(Statement):
    shown: tuple[Shown, ...]


@dataclass(frozen=True)
class Abort(Statement):
    condition: Optional[Expression]
    shown: tuple[Shown, ...]


class Setting(NamedTuple):
    """An option's word, and its value: a number, or a word."""
    word: Word
    at: Place
    value: Union[Number, str]


@dataclass(frozen=True)
class Options(Statement):
    settings: tuple[Setting, ...]


@dataclass(frozen=True)
class Loop(Statement):
    control: Control
    body: tuple[Statement, ...]


class TextTable:
    """Names, or labels: texts in the order in which they first came; letter case does not tell them
    apart.
    """
    MOST = 65_536

    def __init__(self) -> None:
        self.texts: list[str] = []
        self.places: dict[str, int] = {}

    def find(self, text: str) -> Optional[int]:
        return self.places.get(text.lower())

    def enter(self, text: str) -> Optional[int]:
        """The number of a text, which comes last where it is met first; None where there are
        65,536.
        """
        place = self.places.get(text.lower())
        if place is None:
            if len(self.texts) == self.MOST:
                return None
            place = self.places[text.lower()] = len(self.texts)
            self.texts.append(text)
        return place


@dataclass
class Tree:
    """A program: its names, its labels and its statements."""
    names: TextTable = field(default_factory=TextTable)
    labels: TextTable = field(default_factory=TextTable)
    statements: list[Statement] = field(default_factory=list)
