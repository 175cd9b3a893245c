"""The grammar of docs/LANGUAGE.md as a machine: it reads the tokens of a source, and stops at the
first that cannot follow.

A rule is a small graph. Each edge takes a token, enters another rule, or takes nothing; it has a
name that says which part of which rule it is. The machine keeps every state in which it may be,
with the rules that are open there, so what it has read can still become a program exactly as long
as it has a state. The tokens are those of the second implementation, with the texts that explain.
"""
import os
import re
import sys
from dataclasses import dataclass, field
from typing import Dict, Iterator, List, NamedTuple, Optional, Set, Tuple

sys.path.insert(0, os.path.dirname(os.path.dirname(os.path.abspath(__file__))))
from reference.source import Place, SourceFault, column_after, read_source
from reference.tables import labels_at
from reference.tokens import BREAK, END, LABEL, LINE, NUMBER, SYMBOL, TEXT, WORD, Lexer

RULE = re.compile(r'(\w+) +=  ?(.*)')
PART = re.compile(r'"[^"]*"|\w+|[\[\]{}()|]')
RESERVED = re.compile(r'(?m)^\| (.*?) \| (`.*`.*) \|$')
FIGURE = re.compile(r'[+-]?(?:\d+\.?\d*|\.\d+)(?:e[+-]?\d+)?', re.I)
REMARK, CELL, NEWLINE = 'remark', 'cell', 'newline'
MOST_LABEL = 63
CLOSED = {'[': ']', '{': '}', '(': ')'}


# ---- tokens
class Token(NamedTuple):
    """A token: its kind, its text in small letters, and its place."""
    kind: str
    text: str
    at: Place


class TextLexer(Lexer):
    """A lexer that keeps the texts that explain."""

    def remark(self) -> None:
        start = self.offset
        super().remark()
        end, self.offset = self.offset, start
        self.put(REMARK, end)


def cells_of(line: str, at: Place) -> Iterator[Token]:
    """The words of a line of a table, and its end. The place of the first is that of the line."""
    start = len(line) - len(line.lstrip(' \t'))
    is_first = True
    while start < len(line):
        found = labels_at(line, start)
        end = found[1] if found else re.compile(r'[^ \t]+').match(line, start).end()
        yield Token(CELL if found or FIGURE.fullmatch(line[start:end]) else SYMBOL, line[start:end].lower(),
                    at if is_first else Place(at.line, column_after(line[:start])))
        is_first = False
        start = end + len(line[end:]) - len(line[end:].lstrip(' \t'))
    yield Token(NEWLINE, '', Place(at.line, column_after(line)))


def tokens_of(source: str) -> Optional[List[Token]]:
    """The tokens of a source of which each character is a byte, with its end; None where a line or
    a token is wrong.
    """
    read = read_source(source)
    try:
        tokens = TextLexer(read).read()
    except SourceFault:
        return None
    found: List[Token] = []
    for it in tokens if read.fault is None else []:
        found += cells_of(it.text, it.at) if it.kind == LINE else [Token(NEWLINE if it.kind == BREAK else it.kind, it.text, it.at)]
    return found or None


class Words(NamedTuple):
    """The reserved words of the language, by what they are for."""
    statements: Set[str]
    functions: Set[str]
    left_out: Set[str]
    all: Set[str]


def words_of(page: str) -> Words:
    """The reserved words that a page lists in its table."""
    found = {head: set(re.findall(r'[a-z]\w*', ' '.join(re.findall(r'`([^`]*)`', words)))) for head, words in RESERVED.findall(page)}
    return Words(found['they begin statements'], found['functions'], found['left out of the language'],
                 set().union(*(it for head, it in found.items() if head in HEADS)))


HEADS = ('they begin statements', 'values and steps', 'functions', 'other parts of statements', 'left out of the language')


def terminals_of(token: Token, words: Words) -> List[str]:
    """What a token can be in a rule."""
    text = token.text
    if token.kind == WORD:
        return (['"%s"' % text] + ['name']*(text not in words.all) + ['word']*(text not in words.statements | words.left_out)
                + ['function']*(text in words.functions))
    if token.kind == CELL:
        return ['labels']*(labels_at(text, 0) is not None) + ['figure']*bool(FIGURE.fullmatch(text))
    if token.kind == TEXT:
        return ['text'] + ['quoted']*(len(text) <= MOST_LABEL)
    return {SYMBOL: ['"%s"' % text], NUMBER: ['number'], LABEL: ['label'], NEWLINE: ['newline'], REMARK: ['remark']}.get(token.kind, [])


# ---- rules
class Edge(NamedTuple):
    """An edge of a rule's graph: the token or the rule that it takes, or nothing; where it leads;
    and its name, empty if it has none.
    """
    takes: str
    end: int
    name: str


@dataclass
class Machine:
    """Rules as graphs."""
    words: Words
    rules: Dict[str, Tuple[int, int]] = field(default_factory=dict)
    edges: List[List[Edge]] = field(default_factory=list)
    stacks: Dict[Tuple[int, int], int] = field(default_factory=dict)
    opened: List[Tuple[int, int]] = field(default_factory=list)
    known: Dict[int, tuple] = field(default_factory=dict)

    def state(self) -> int:
        self.edges.append([])
        return len(self.edges) - 1

    def link(self, start: int, end: int, takes: str = '', name: str = '') -> None:
        self.edges[start].append(Edge(takes, end, name))

    def add(self, name: str, parts: List[str]) -> None:
        """Adds a rule."""
        start, end = self.rules.get(name) or (self.state(), self.state())
        self.rules[name] = start, end
        self.sides(name, parts, start, end)

    def sides(self, rule: str, parts: List[str], start: int, end: int) -> None:
        """Adds the alternatives of some parts."""
        depth, place = 0, 0
        for k, part in enumerate(parts + ['|']):
            depth += (part in CLOSED) - (part in CLOSED.values())
            if part == '|' and not depth:
                self.sequence(rule, parts[place:k], start, end)
                place = k + 1

    def sequence(self, rule: str, parts: List[str], start: int, end: int) -> None:
        """Adds parts that follow each other."""
        k = 0
        while k < len(parts):
            last = k + closing(parts[k:]) if parts[k] in CLOSED else k
            goal = end if last == len(parts) - 1 else self.state()
            if parts[k] in CLOSED:
                self.group(rule, parts[k], parts[k + 1:last], (start, goal))
            else:
                self.link(start, goal, parts[k], '%s: %s' % (rule, ' '.join(parts[max(k - 2, 0):k + 1])))
            start, k = goal, last + 1

    def group(self, rule: str, bracket: str, inner: List[str], ends: Tuple[int, int]) -> None:
        """Adds what is between brackets."""
        start, goal = ends
        first, last = self.state(), self.state()
        title = '%s: %s %s %s' % (rule, bracket, ' '.join(inner), CLOSED[bracket])
        self.sides(rule, inner, first, last)
        self.link(start, first)
        if bracket == '(':
            self.link(last, goal)
            return
        self.link(start, goal, name=title + ' left out')
        self.link(last, goal)
        if bracket == '{':
            self.link(last, first, name=title + ' twice')

    # ---- stacks: a state, and the stack to which a rule returns
    def stack(self, state: int, below: int) -> int:
        key = state, below
        if key not in self.stacks:
            self.stacks[key] = len(self.opened)
            self.opened.append(key)
        return self.stacks[key]

    def follow(self, stack: int) -> tuple:
        """What a stack can take: for each terminal the stacks after it, with the names of the edges
        on the way; and the way to the end.
        """
        if stack in self.known:
            return self.known[stack]
        ends = {end: rule for rule, (_, end) in self.rules.items()}
        takes: Dict[str, list] = {}
        done = None
        seen, waiting = set(), [(stack, ())]
        while waiting:
            here, path = waiting.pop()
            if here in seen:
                continue
            seen.add(here)
            state, below = self.opened[here]
            if state in ends and below < 0:
                done = path
            elif state in ends:
                waiting.append((below, path))
            for edge in self.edges[state]:
                then = path + (edge.name,)*bool(edge.name)
                if not edge.takes:
                    waiting.append((self.stack(edge.end, below), then))
                elif edge.takes in self.rules:
                    waiting.append((self.stack(self.rules[edge.takes][0], self.stack(edge.end, below)), then))
                else:
                    takes.setdefault(edge.takes, []).append((self.stack(edge.end, below), then))
        self.known[stack] = takes, done
        return takes, done

    def start(self, rule: str) -> Dict[int, tuple]:
        """The states before the first token of a rule."""
        return {self.stack(self.rules[rule][0], -1): ()}

    def step(self, live: Dict[int, tuple], token: Token) -> Dict[int, tuple]:
        """The states after a token, each with the way to it; none where the token cannot follow."""
        found: Dict[int, tuple] = {}
        for stack, ways in live.items():
            takes = self.follow(stack)[0]
            for terminal in terminals_of(token, self.words):
                for then, path in takes.get(terminal, ()):
                    found.setdefault(then, (ways, path))
        return found

    def read(self, rule: str, tokens: List[Token]) -> 'Reading':
        """Reads tokens, the last of which is the end, up to the first that cannot follow."""
        live = self.start(rule)
        for count, token in enumerate(tokens):
            if token.kind == END:
                done = [(ways, self.follow(stack)[1]) for stack, ways in live.items() if self.follow(stack)[1] is not None]
                return Reading(count, bool(done), live, (done[0][0], done[0][1]) if done else ())
            found = self.step(live, token)
            if not found:
                return Reading(count, False, live, ())
            live = found
        raise ValueError('no end')

    def takes(self, live) -> Set[str]:
        """The terminals that can follow."""
        return {terminal for stack in live for terminal in self.follow(stack)[0]}

    def names(self) -> Set[str]:
        """The names of all edges."""
        return {edge.name for edges in self.edges for edge in edges if edge.name}


class Reading(NamedTuple):
    """How far tokens were read: how many, whether they are all that the rule requires, the last
    states, and the way to them.
    """
    count: int
    is_whole: bool
    live: dict
    way: tuple

    def names(self) -> Set[str]:
        """The names of the edges on the way."""
        return names_on(self.way)


def names_on(way: tuple) -> Set[str]:
    found: Set[str] = set()
    while way:
        found.update(way[1])
        way = way[0]
    return found


def closing(parts: List[str]) -> int:
    """Where the bracket closes that the parts begin with."""
    depth = 0
    for k, part in enumerate(parts):
        depth += (part in CLOSED) - (part in CLOSED.values())
        if not depth:
            return k
    raise ValueError(parts)


def rules_of(text: str) -> Dict[str, List[str]]:
    """The parts of each rule of a grammar."""
    found: Dict[str, str] = {}
    name = ''
    for line in text.splitlines():
        head = RULE.match(line)
        if head:
            name, line = head[1], head[2]
        if line.strip():
            found[name] = found.get(name, '') + ' ' + line
    return {key: PART.findall(side) for key, side in found.items()}


def machine_of(page: str, grammar: str) -> Machine:
    """The machine of a page's grammar."""
    machine = Machine(words_of(page))
    rules = rules_of(grammar)
    for name in rules:
        machine.rules[name] = machine.state(), machine.state()
    for name, parts in rules.items():
        machine.add(name, parts)
    return machine
