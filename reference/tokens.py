"""The tokens of a source (docs/LANGUAGE.md, "Words, numbers, symbols", "Declarations";
docs/internals/DESIGN.md, "Tokens after an error"; docs/internals/DECISIONS.md, "Tokens").

Which token may come next depends on the tokens before it: this is the mode. Code has words,
numbers, texts in quotation marks and symbols; a text follows a declared name; a list has labels; a
table has whole lines. A token is the longest that its mode allows.
"""
import re
from dataclasses import dataclass
from typing import NamedTuple, Optional

from reference import errors
from reference.source import Place, Source, SourceFault
from reference.words import STATEMENT_WORDS

WORD, LABEL, NUMBER, TEXT, SYMBOL, BREAK, LINE, END = 'word', 'label', 'number', 'text', 'symbol', 'break', 'line', 'end'

MOST_LABEL = 63
WORD_FORM = re.compile(r'[A-Za-z][A-Za-z0-9_]*')
NUMBER_FORM = re.compile(r'(?:[0-9]+(?:\.(?!\.)[0-9]*)?|\.[0-9]+)(?:[eE][+-]?[0-9]+)?')
LABEL_FORM = re.compile(r'[A-Za-z0-9][A-Za-z0-9+\-_]*')
SYMBOL_FORM = re.compile(r'=[eElLgGnN]=|\*\*|\.\.|<=|>=|<>|\+\+|--|[-+*/=<>(),;.$]')
BLANKS = re.compile(r'[ \t]*')
GAP = re.compile(r'[ \t\n]*')
PLAIN_TEXT = re.compile(r'[^/,;\r\n]+')
TABLE_HEADS = ('table_named', 'table_bare', 'table_rest')

SHAPES = {'set': 'set', 'sets': 'set', 'variable': 'set', 'variables': 'set', 'equation': 'set', 'equations': 'set',
          'parameter': 'parameter', 'parameters': 'parameter', 'scalar': 'scalar', 'scalars': 'scalar',
          'model': 'model', 'models': 'model'}


class Token(NamedTuple):
    """A token: its kind, its text (words and symbols in small letters; labels and texts without
    quotation marks), its place, and its bytes.
    """
    kind: str
    text: str
    at: Place
    written: str


# The modes that read a token of code, with the mode after it, and the one after a word that begins
# no statement.
AFTER_CODE = {'code': ('code', 'code'), 'item': ('item', 'named'), 'table': ('code', 'table_named'), 'table_rest': ('code', 'code')}


@dataclass
class Mode:
    """What may come next.

    code         a statement, or what follows in it
    item         a declared name is expected
    named        after a declared name
    domain       in the parentheses after it
    bare         after those
    rest         after that, or after a text or a list
    element      in a list, where a label is expected; `is_fresh` at the start of an element
    after        in a list, after a label; `is_spaced` after a blank
    tail         in a list, where numbers and names may occur; `is_fresh` before the first of them
    table, table_named, table_domain, table_bare, table_rest
                 the same after the word `table`, up to the end of that line
    lines        the lines of a table

    `shape` is the kind of the declaration, and `depth` how many parentheses are open in a list.
    """
    state: str = 'code'
    shape: str = ''
    depth: int = 0
    is_fresh: bool = False
    is_spaced: bool = False


class Lexer:
    """Reads the tokens of a source from its first byte to its last."""

    def __init__(self, source: Source) -> None:
        self.source = source
        self.text = source.code
        self.offset = 0
        self.mode = Mode()
        self.tokens: list[Token] = []

    def fault(self, code: errors.Source, offset: Optional[int] = None) -> SourceFault:
        return SourceFault(code, self.source.place(self.offset if offset is None else offset))

    def put(self, kind: str, end: int, text: Optional[str] = None) -> None:
        """Adds the token that ends there, and continues after it."""
        written = self.text[self.offset:end]
        at = self.source.place(self.offset)
        self.tokens.append(Token(kind, written.lower() if text is None else text, at, written))
        self.offset = end

    def go(self, state: str, depth: int = 0, is_fresh: bool = False) -> None:
        self.mode = Mode(state, self.mode.shape, depth, is_fresh)

    # ---- blanks and line ends
    def gap(self) -> bool:
        """Passes blanks and line ends, and gives whether anything follows. A line end may be a
        token.
        """
        while True:
            end = BLANKS.match(self.text, self.offset).end()
            self.mode.is_spaced = self.mode.is_spaced or end > self.offset
            self.offset = end
            if self.text[end:end + 1] != '\n':
                return end < len(self.text)
            if self.mode.state in TABLE_HEADS:
                self.offset = end + 1
                self.go('lines')
                continue
            passing, following = self.passing(), GAP.match(self.text, end).end()
            if passing is not None and following < len(self.text) and self.text[following] not in passing:
                self.put(BREAK, end + 1)
                self.after_break()
            else:
                self.offset = following

    def passing(self) -> Optional[str]:
        """Before which characters a line end is no token; None where it is none at all."""
        mode = self.mode
        if mode.state in ('named', 'bare', 'rest'):
            return '/,;'
        if mode.state in ('element', 'after', 'tail') and mode.depth == 0 and not mode.is_fresh:
            return '/,'
        return None

    def after_break(self) -> None:
        if self.mode.state in ('named', 'bare', 'rest'):
            self.go('item')
        else:
            self.start()

    def start(self) -> None:
        """The mode in which an element of a list is expected."""
        self.go('element' if self.mode.shape in ('set', 'parameter') else 'tail', is_fresh=True)

    # ---- tokens
    def quoted(self, kind: str) -> None:
        """A text in quotation marks."""
        end = self.quoted_end()
        text = self.text[self.offset + 1:end - 1]
        if kind == LABEL and len(text) > MOST_LABEL:
            raise self.fault(errors.Source.LongLabel)
        self.ascii_up_to(end)
        self.put(kind, end, text)

    def quoted_end(self) -> int:
        line_end = self.text.find('\n', self.offset)
        close = self.text.find(self.text[self.offset], self.offset + 1, len(self.text) if line_end < 0 else line_end)
        if close < 0:
            raise self.fault(errors.Source.OpenQuote)
        return close + 1

    def ascii_up_to(self, end: int) -> None:
        for k in range(self.offset, end):
            if self.text[k] > '\x7f':
                raise self.fault(errors.Source.BadByte, k)

    def code(self, quoted_kind: str) -> None:
        """A word, a number, a text in quotation marks or a symbol."""
        word, number = WORD_FORM.match(self.text, self.offset), NUMBER_FORM.match(self.text, self.offset)
        if word:
            if len(word[0]) > MOST_LABEL:
                raise self.fault(errors.Source.LongLabel)
            self.put(WORD, word.end())
        elif number:
            self.put(NUMBER, number.end())
        else:
            self.quoted_or_symbol(quoted_kind)

    def quoted_or_symbol(self, quoted_kind: str) -> None:
        if self.text[self.offset] in '"\'':
            self.quoted(quoted_kind)
            return
        symbol = SYMBOL_FORM.match(self.text, self.offset)
        if symbol is None:
            raise self.fault(errors.Source.BadByte)
        self.put(SYMBOL, symbol.end())

    def label(self) -> None:
        """A label, in quotation marks or not, or a symbol."""
        label = LABEL_FORM.match(self.text, self.offset)
        if label is None:
            self.quoted_or_symbol(LABEL)
            return
        if len(label[0]) > MOST_LABEL:
            raise self.fault(errors.Source.LongLabel)
        self.put(LABEL, label.end(), label[0])

    def remark(self) -> None:
        """A text that explains: it is passed over and is no token."""
        if self.text[self.offset] in '"\'':
            end = self.quoted_end()
            self.ascii_up_to(end)
            self.offset = end
        else:
            match = PLAIN_TEXT.match(self.text, self.offset)
            self.offset = match.end() if match else self.offset + 1

    # ---- modes
    def read(self) -> list[Token]:
        while self.gap():
            if self.mode.state in AFTER_CODE:
                self.code(TEXT)
                self.after_code(*AFTER_CODE[self.mode.state])
            else:
                getattr(self, 'read_' + self.mode.state.removeprefix('table_'))()
        self.put(END, self.offset)
        return self.tokens

    def is_symbol(self, texts: str) -> bool:
        """Whether the last token is a symbol of one of these characters."""
        last = self.tokens[-1]
        return last.kind == SYMBOL and last.text in tuple(texts)

    def keyword(self, otherwise: str) -> None:
        """The mode after a word: a word that declares begins items, each other statement's word
        begins code.
        """
        word = self.tokens[-1].text
        if word in SHAPES:
            self.mode = Mode('item', SHAPES[word])
        elif word == 'table':
            self.mode = Mode('table')
        elif word in STATEMENT_WORDS:
            self.mode = Mode()
        else:
            self.go(otherwise)

    def after_code(self, state: str, named: str) -> None:
        """The mode after a token of code: that state, except that a word leads to another one and
        `;` ends it.
        """
        if self.is_symbol(';'):
            self.mode = Mode()
        elif self.tokens[-1].kind == WORD:
            self.keyword(named)
        else:
            self.go(state)

    @property
    def prefix(self) -> str:
        """What the names of a table's modes begin with."""
        return 'table_' if self.mode.state.startswith('table_') else ''

    def read_named(self) -> None:
        """After a declared name: its domain, or else as after its domain."""
        if self.text[self.offset] == '(':
            self.put(SYMBOL, self.offset + 1)
            self.go(self.prefix + 'domain')
        else:
            self.read_bare()

    def read_bare(self) -> None:
        """After the domain of a declared name: a list, the end of the item, or a text."""
        if self.text[self.offset] not in '/,;':
            self.remark()
            self.go(self.prefix + 'rest')
            return
        self.put(SYMBOL, self.offset + 1)
        if self.prefix:
            self.mode = Mode()
        else:
            self.after_item()

    def after_item(self) -> None:
        if self.is_symbol('/'):
            self.start()
        elif self.is_symbol(','):
            self.go('item')
        else:
            self.mode = Mode()

    def read_domain(self) -> None:
        """In a domain a word that begins statements changes nothing."""
        self.code(TEXT)
        if self.is_symbol(';'):
            self.mode = Mode()
        elif self.is_symbol(')'):
            self.go(self.prefix + 'bare')

    def read_rest(self) -> None:
        self.code(TEXT)
        if self.is_symbol('/,;'):
            self.after_item()
        else:
            self.after_code('rest', 'rest')

    def read_element(self) -> None:
        self.label()
        if self.tokens[-1].kind == LABEL:
            self.go('after', self.mode.depth)
        elif self.is_symbol('('):
            self.go('element', self.mode.depth + 1)
        else:
            self.after_list_symbol('element')

    def after_list_symbol(self, otherwise: str) -> None:
        """The mode after a token of a list that is no label."""
        depth = self.mode.depth
        if self.is_symbol(';'):
            self.mode = Mode()
        elif self.is_symbol('/'):
            self.go('rest')
        elif self.is_symbol(')'):
            self.go('after', max(depth - 1, 0))
        elif self.is_symbol(',') and depth > 0:
            self.go('element', depth)
        elif self.is_symbol(','):
            self.start()
        elif self.tokens[-1].kind == SYMBOL and self.tokens[-1].text[0] in '.*':
            self.go('element', depth)
        else:
            self.go(otherwise, depth)

    def begins_number(self) -> bool:
        """Whether a dot after a blank begins a number, in a list of a parameter."""
        return (self.mode.shape == 'parameter' and self.mode.depth == 0 and self.mode.is_spaced
                and re.match(r'\.[0-9]', self.text[self.offset:self.offset + 2]) is not None)

    def read_after(self) -> None:
        depth = self.mode.depth
        if self.text[self.offset] in '/,;)*.' and not self.begins_number():
            self.quoted_or_symbol(LABEL)
            self.after_list_symbol('tail')
        elif depth > 0:
            self.label()
            self.go('after', depth)
        elif self.mode.shape == 'parameter':
            self.code(LABEL)
            self.go('tail')
        else:
            self.remark()
            self.go('tail')

    def read_tail(self) -> None:
        self.code(LABEL)
        if self.is_symbol(';'):
            self.mode = Mode()
        elif self.is_symbol('/'):
            self.go('rest')
        elif self.is_symbol(','):
            self.start()
        elif self.is_symbol(')') and self.mode.shape in ('set', 'parameter'):
            self.go('after')
        else:
            self.go('tail')

    # ---- tables
    def read_lines(self) -> None:
        """A line of a table, up to a `;`, or a statement that ends the table."""
        start = self.text.rfind('\n', 0, self.offset) + 1
        line_end = self.text.find('\n', self.offset)
        line = self.text[start:len(self.text) if line_end < 0 else line_end]
        length = table_end(line)
        if begins_statement(line) or not line[:length].strip(' \t'):
            self.code(TEXT)
            self.after_code('code', 'code')
            return
        self.offset = start
        self.ascii_up_to(start + length)
        self.put(LINE, start + length, line[:length])
        self.go('lines' if length == len(line) else 'code')


def begins_statement(line: str) -> bool:
    """Whether the first word of a table's line begins a statement; before a dot it is a label."""
    label = LABEL_FORM.match(line.lstrip(' \t'))
    if label is None or label[0].lower() not in STATEMENT_WORDS:
        return False
    return not line.lstrip(' \t')[label.end():].startswith('.')


def table_end(line: str) -> int:
    """How many bytes of a line belong to its table: up to a `;` outside of quotation marks.

    A mark counts only where a label may begin, and where it comes again on the line.
    """
    k, may_begin = 0, True
    while k < len(line) and line[k] != ';':
        if may_begin and line[k] in '"\'' and line.find(line[k], k + 1) >= 0:
            k = line.find(line[k], k + 1)
            may_begin = False
        else:
            may_begin = line[k] in ' \t.'
        k += 1
    return k


def tokens_of(source: Source) -> list[Token]:
    """The tokens, or the first error of lines and tokens: the first by its place, and at one place
    the one with the least number.
    """
    fault = source.fault
    tokens: list[Token] = []
    try:
        tokens = Lexer(source).read()
    except SourceFault as found:
        fault = found if fault is None else min(fault, found, key=lambda it: (it.at, it.code))
    if fault is not None:
        raise fault
    return tokens
