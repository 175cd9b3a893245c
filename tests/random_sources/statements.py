"""Statements that act: assignments, displays, options, aborts and loops; and definitions of
equations.
"""
from typing import Optional

from tests.random_sources.expressions import (Scope, Tokens, control, expression, guard, in_parentheses, index, joined, linear, set_side)
from tests.random_sources.layout import digits, quoted
from tests.random_sources.world import Symbol, World

SHOWN_TEXTS = ['the plan', 'a "text"', 'x  y', '', 'cost, in $']
SUFFIXES = {'variable': ['l', 'm', 'lo', 'up'], 'equation': ['l', 'm'], 'model': ['modelstat', 'solvestat']}
IGNORED = 'reslim optcr optca domlim bratio sysout solslack nlp mip rmip dnlp mcp'.split()


def left_side(scope: Scope, symbol: Symbol, suffix: str = '') -> tuple[Tokens, Scope]:
    """The left side of an assignment, with the scope of its right side: sets that no loop controls
    are controlled by it.
    """
    world, draw = scope.world, scope.world.draw
    tokens = [draw.cased(symbol.name)] + (['.', suffix] if suffix else [])
    if not symbol.domain:
        return tokens, scope
    inner = scope
    parts = []
    for position in symbol.domain:
        sets = [it.name for it in world.line_sets() if world.is_below(it.name, position) and len(it.elements) < 20]
        if sets and draw.chance(0.82):
            name = draw.pick(sets)
            if name not in inner.controlled:
                inner = inner.with_sets([name])
            lag = index(Scope(world, (name,), 0, scope.risk), position, True) if draw.chance(0.12) else None
            parts.append(lag or [name])
        else:
            labels = world.labels_at(position)
            parts.append([quoted(draw, draw.pick(labels))] if labels else ['"none"'])
    return tokens + in_parentheses(joined(parts)), inner


def assignment(scope: Scope) -> Optional[Tokens]:
    """An assignment to a parameter, a scalar, an attribute of a variable, or a dynamic set."""
    world, draw = scope.world, scope.world.draw
    targets = [it for it in world.symbols.values() if it.kind in ('parameter', 'scalar', 'variable')
               or it.kind == 'set' and it.is_dynamic]
    if not targets:
        return None
    symbol = draw.pick(targets)
    suffix = draw.weighted((3, 'lo'), (5, 'up'), (3, 'l'), (1, 'm'), (2, 'fx')) if symbol.kind == 'variable' else ''
    tokens, inner = left_side(scope, symbol, suffix)
    draw.note('assignment ' + symbol.kind, *(['assignment .' + suffix] if suffix else []))
    if draw.chance(0.25):
        draw.note('assignment with a condition')
        tokens = tokens + guard(inner)
    if symbol.kind == 'set':
        return tokens + ['='] + set_side(inner)
    if suffix and draw.chance(0.3):
        special = {'lo': ['-', 'inf'], 'up': ['inf']}
        return tokens + ['='] + (special[suffix] if suffix in special and draw.chance(0.4) else [digits(draw)])
    return tokens + ['='] + expression(inner)


def shown(world: World) -> Optional[Tokens]:
    """An item of a display."""
    draw = world.draw
    if draw.chance(0.07):
        draw.note('shown text')
        return [quoted(draw, draw.pick(SHOWN_TEXTS))]
    if not world.symbols:
        return None
    symbol = draw.pick(list(world.symbols.values()))
    draw.note('shown ' + symbol.kind)
    if symbol.kind in SUFFIXES:
        suffix = draw.pick(SUFFIXES[symbol.kind])
        draw.note('shown .' + suffix)
        return [symbol.name, '.', suffix]
    return [draw.cased(symbol.name)]


def display(scope: Scope) -> Optional[Tokens]:
    """A display of some items."""
    found = [it for it in (shown(scope.world) for _ in range(scope.world.draw.between(1, 3))) if it]
    return [scope.world.draw.cased('display')] + joined(found) if found else None


def option(scope: Scope) -> Tokens:
    """One or more options."""
    draw = scope.world.draw
    parts = []
    for _ in range(draw.weighted((3, 1), (1, 2))):
        name = draw.pick(['limrow', 'limcol', 'iterlim', 'decimals', 'decimals', 'solprint', 'lp', 'lp', 'other'])
        draw.note('option ' + name)
        values = {'limrow': ['0', '1', '2', '100'], 'limcol': ['0', '1', '2', '100'], 'iterlim': ['0', '1', '2', '3', '1000', '2e3'],
                  'decimals': ['0', '1', '2', '4', '6', '8'], 'solprint': ['on', 'off', 'on'], 'lp': ['bland', 'dantzig', 'Dantzig', 'steepest', 'any'],
                  'other': ['5', '.5', 'xyz', 'on']}
        word = draw.pick(IGNORED) if name == 'other' else name
        parts.append([draw.cased(word), '=', draw.pick(values[name])])
    return [draw.pick(['option', 'options'])] + joined(parts)


def abort(scope: Scope, holds: bool = False) -> Tokens:
    """An abort, mostly with a condition that does not hold."""
    draw = scope.world.draw
    draw.note('abort')
    tokens = [draw.cased('abort')]
    if not holds or draw.chance(0.6):
        tokens += guard(scope) if holds or draw.chance(0.2) else ['$', '(', '1', '=', '2', ')']
    found = [it for it in (shown(scope.world) for _ in range(draw.between(0, 2))) if it]
    return tokens + (joined(found) if found else [])


def loop(scope: Scope) -> Optional[Tokens]:
    """A loop over a control; solves are put into loops where models are written."""
    draw = scope.world.draw
    found = control(scope)
    if not found:
        return None
    tokens, inner = found
    draw.note('loop')
    body = [it for it in (inner_statement(inner) for _ in range(draw.between(1, 3))) if it]
    if not body:
        return None
    end = [';'] if draw.chance(0.3) else []
    return [draw.cased('loop'), '('] + tokens + [','] + joined(body, ';') + end + [')']


def solve(world: World, model: str, objective: str) -> Tokens:
    """A solve in one of its two forms."""
    draw = world.draw
    way = draw.pick(['minimizing', 'maximizing'])
    draw.note('solve ' + way)
    start, using, ending = [draw.cased('solve'), model], [draw.cased('using'), draw.cased('lp')], [draw.cased(way), objective]
    if draw.chance(0.5):
        draw.note('solve with using first')
        return start + using + ending
    draw.note('solve with using last')
    return start + ending + using


def solving_loop(scope: Scope, tokens: Tokens) -> Optional[Tokens]:
    """A loop around a solve, with an assignment before it."""
    found = control(scope)
    if not found:
        return None
    head, inner = found
    scope.world.draw.note('solve in a loop')
    body = [it for it in (assignment(inner), tokens) if it]
    return ['loop', '('] + head + [','] + joined(body, ';') + [')']


def inner_statement(scope: Scope) -> Optional[Tokens]:
    """A statement of a loop."""
    draw = scope.world.draw
    if scope.depth < 1:
        return assignment(scope)
    return draw.call((8, lambda: assignment(scope)), (2, lambda: display(scope)), (1, lambda: loop(scope)),
                     (0.5, lambda: option(scope)), (0.4, lambda: abort(scope)))


def head(scope: Scope, symbol: Symbol) -> tuple[Tokens, Scope]:
    """The head of a definition: sets, and labels in marks, without lags."""
    world, draw = scope.world, scope.world.draw
    parts, names = [], []
    for position in symbol.domain:
        sets = [it.name for it in world.line_sets() if world.is_below(it.name, position)]
        if sets and draw.chance(0.92):
            names.append(draw.pick(sets))
            parts.append([names[-1]])
        else:
            labels = world.labels_at(position)
            parts.append([quoted(draw, draw.pick(labels))] if labels else ['"none"'])
    inner = scope.with_sets([it for place, it in enumerate(names) if it not in names[:place]])
    return ([symbol.name] + in_parentheses(joined(parts)) if parts else [symbol.name]), inner


def definition(scope: Scope, symbol: Symbol, variables: list[Symbol]) -> Tokens:
    """A definition of an equation, linear in these variables."""
    draw = scope.world.draw
    tokens, inner = head(scope, symbol)
    symbol.is_defined = True
    if draw.chance(0.2):
        draw.note('definition with a condition')
        tokens += guard(inner)
    sense = draw.weighted((4, '=e='), (4, '=l='), (4, '=g='), (1, '=n='))
    draw.note('definition', 'sense ' + sense)
    right = linear(inner, variables) if draw.chance(0.3) else [digits(draw)]
    left = linear(inner, variables) if draw.chance(0.97) else [digits(draw)]
    if draw.chance(0.1):
        left, right = right, left
    return tokens + ['..'] + left + [draw.weighted((9, sense), (1, sense.upper()))] + right
