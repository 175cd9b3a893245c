#!/usr/bin/env python3
"""Prints specs/GamsLookAhead.antt: what may come first in each nonterminal of
specs/GamsGrammar.antt, what may follow it, whether it may be empty, and a bound on its least tree.
If one token does not decide, a message on standard error reports it.

Run it in the crate's folder: tools/look_ahead.py > specs/GamsLookAhead.antt. Its output is proved,
and not trusted.
"""
import re
import sys

text = open("specs/GamsGrammar.antt").read()
kinds = re.findall(r"^    (\w+),$", open("src/terminal.rt").read(), re.M)
helpers = {}


def lines_of(name):
    return re.findall(rf"^{name} ((?:\w+ )*)=((?:.|\n)+?)(?=^\S)", text + "\nend", re.M)


def tokenize(source):
    return re.findall(r"[()\[\]·∣∷]|\w+", source)


class Reader:
    """Reads the right side of a production."""

    def __init__(self, source, bound):
        self.tokens = tokenize(source)
        self.at = 0
        self.bound = bound

    def peek(self):
        return self.tokens[self.at] if self.at < len(self.tokens) else None

    def take(self):
        self.at += 1
        return self.tokens[self.at - 1]

    def alternatives(self):
        first = self.sequence()
        if self.peek() == "∣":
            self.take()
            return ("or", first, self.alternatives())
        return first

    def sequence(self):
        first = self.call()
        if self.peek() == "·":
            self.take()
            return ("then", first, self.sequence())
        return first

    def kinds(self):
        assert self.take() == "("
        found = []
        while self.peek() != ")":
            word = self.take()
            if word not in "∷[]":
                found.append(word)
        self.take()
        return found

    def argument(self):
        if self.peek() == "(":
            self.take()
            part = self.alternatives()
            assert self.take() == ")"
            return part
        return self.called(self.take(), [])

    def call(self):
        if self.peek() == "(":
            return self.argument()
        head = self.take()
        if head == "token":
            return ("one", {self.take()})
        if head == "any_of":
            return ("one", set(self.kinds()))
        if head == "the":
            name = self.take()
            return ("the", self.bound.get(name, name))
        if head in ("opt", "many"):
            return (head, self.argument())
        arguments = []
        while self.peek() not in (None, ")", "·", "∣"):
            if head == "items":
                arguments.append(self.take())
            else:
                arguments.append(self.argument())
        return self.called(head, arguments)

    def called(self, head, arguments):
        if head in self.bound:
            return self.bound[head]
        parameters, body = helpers[head]
        return Reader(body, dict(zip(parameters, arguments))).alternatives()


for helper in set(re.findall(r"^abbrev pub (\w+) : .*Part Terminal Nonterminal$", text, re.M)) - {"token", "any_of", "productions"}:
    parameters, body = lines_of(helper)[0]
    helpers[helper] = (parameters.split(), body)

names, rules = [], {}
for name, body in re.findall(r"^productions (\w+) =((?:.|\n)+?)(?=^\S|\Z)", text, re.M):
    names.append(name)
    rules[name] = Reader(body, {}).alternatives()

first = {n: set() for n in names}
follow = {n: set() for n in names}
empty = {n: False for n in names}
depth = {n: 10**6 for n in names}
rank = {n: 0 for n in names}


def may_be_empty(part):
    match part:
        case ("one", _):
            return False
        case ("the", n):
            return empty[n]
        case ("then", p, q):
            return may_be_empty(p) and may_be_empty(q)
        case ("or", p, q):
            return may_be_empty(p) or may_be_empty(q)
    return True


def may_begin(part):
    match part:
        case ("one", kinds):
            return kinds
        case ("the", n):
            return first[n]
        case ("then", p, q):
            return may_begin(p) | (may_begin(q) if may_be_empty(p) else set())
        case ("or", p, q):
            return may_begin(p) | may_begin(q)
        case (_, p):
            return may_begin(p)


def least(part):
    match part:
        case ("one", _):
            return 0
        case ("the", n):
            return depth[n] + 1
        case ("then", p, q):
            return max(least(p), least(q))
        case ("or", p, q):
            return min(least(p), least(q))
    return 0


def ranks(part):
    """Gives a number above the ranks of the nonterminals that may come first in the part."""
    match part:
        case ("one", _):
            return 0
        case ("the", n):
            return rank[n] + 1
        case ("then", p, q):
            return max(ranks(p), ranks(q)) if may_be_empty(p) else ranks(p)
        case ("or", p, q):
            return max(ranks(p), ranks(q))
        case (_, p):
            return ranks(p)


def spread(part, after, report=None):
    """Gives what follows each nonterminal of the part; reports where one token does not decide."""
    match part:
        case ("the", n):
            follow[n] |= after
        case ("then", p, q):
            spread(p, may_begin(q) | (after if may_be_empty(q) else set()), report)
            spread(q, after, report)
        case ("or", p, q):
            if report and (may_be_empty(p) or may_be_empty(q) or may_begin(p) & may_begin(q)):
                print(report, "alternatives", may_begin(p) & may_begin(q), file=sys.stderr)
            spread(p, after, report)
            spread(q, after, report)
        case (form, p) if form in ("opt", "many"):
            if report and (may_be_empty(p) or may_begin(p) & after):
                print(report, form, may_begin(p) & after, file=sys.stderr)
            spread(p, after | (may_begin(p) if form == "many" else set()), report)


for _ in range(len(names) + 1):
    for n in names:
        first[n] |= may_begin(rules[n])
        empty[n] = may_be_empty(rules[n])
        depth[n] = min(depth[n], least(rules[n]))
for _ in range(len(names) + 1):
    for n in names:
        spread(rules[n], follow[n])
        rank[n] = ranks(rules[n])
for n in names:
    spread(rules[n], follow[n], n)


def written(kind_set):
    return " ∷ ".join([k for k in kinds if k in kind_set] + ["[]"])


used = [k for k in kinds if any(k in first[n] | follow[n] for n in names)]
empties = [n for n in names if empty[n]]
print(f"""-- The first and follow sets of the grammar of the language. tools/look_ahead.py prints this file;
-- it is proved.
use Rattle.std.specs.Prelude.{{ℕ, Bool, true, false, List, [], ◌∷◌}}
use Rattle.gms_grammar.specs.declared.terminal.Terminal.{{Terminal}}
use Rattle.gms_grammar.specs.declared.terminal.Terminal.TheVariants.{{{', '.join(used)}}}
use Rattle.gms_grammar.specs.LookAhead.{{LookAhead}}
use Rattle.gms_grammar.specs.Terminals.{{is_terminal_among}}
use Rattle.gms_grammar.specs.GamsGrammar.{{Nonterminal, {', '.join(names)}}}

-- the kinds of tokens with which a nonterminal can begin
abbrev pub firsts : Nonterminal → List Terminal""")
for n in names:
    print(f"firsts {n} = {written(first[n])}")
print("""
-- the kinds of tokens that can follow a nonterminal in a program
abbrev pub follows : Nonterminal → List Terminal""")
for n in names:
    print(f"follows {n} = {written(follow[n])}")
print("""
-- whether a nonterminal derives the empty list of tokens
abbrev pub is_empty : Nonterminal → Bool""")
for n in empties:
    print(f"is_empty {n} = true")
print("""is_empty _ = false

-- a depth of each nonterminal: some derivation tree of it has, below its root, only nonterminals of
-- less depth, so each nonterminal derives something
abbrev pub least_depth : Nonterminal → ℕ""")
for n in names:
    print(f"least_depth {n} = {depth[n]}")
print("""
-- a rank of each nonterminal: those with which it can begin have a lower rank, so no nonterminal
-- begins with itself
abbrev pub leading_rank : Nonterminal → ℕ""")
for n in names:
    print(f"leading_rank {n} = {rank[n]}")
print("""
-- the tables `firsts`, `follows`, `is_empty`, `least_depth` and `leading_rank` in one record: what
-- is known of each nonterminal, so that one token of look-ahead decides how to continue
abbrev pub look_ahead : LookAhead Terminal Nonterminal
look_ahead = record { first = λ n. is_terminal_among (firsts n); follow = λ n. is_terminal_among (follows n); empty = is_empty; depth = least_depth; rank = leading_rank }""")
