"""Expressions: numbers, conditions, right sides of sets, and the linear sides of equations, as
lists of tokens.
"""
from dataclasses import dataclass, replace
from typing import Optional

from tests.random_sources.layout import digits, number, quoted
from tests.random_sources.world import Symbol, World

Tokens = list[str]
RELATIONS = ['<', '<=', '=', '<>', '>=', '>', 'lt', 'le', 'eq', 'ne', 'ge', 'gt']
SPECIAL = ['( - inf ) ** 2', '( - inf ) ** 3', 'abs ( - inf )', 'min ( na , 1 )', 'max ( 1 , na )', '1 / inf', 'na ** 0', 'inf ** ( - 1 )', 'sign ( - inf )',
           'floor ( inf )', 'na = na', 'na <> 1', 'inf > 5', 'mod ( 5 , inf )', '1 $ na', '- inf < inf', 'na < 1', 'max ( inf , 2 )', 'inf + 1', '2 - inf',
           'inf * ( - 2 )', 'na / 2', 'round ( na )', 'sqr ( - inf )', 'min ( - inf , 3 )', 'inf / ( - 2 )', 'mod ( - 7 , 3 )', 'trunc ( - 2.5 )',
           'round ( - 2.5 )', 'floor ( - 2.5 )', 'ceil ( - 2.5 )', 'mod ( 7 , - 3 )', 'mod ( - 5.5 , 2 )', 'sign ( - 3 )', '( - 2 ) ** 3', '2 ** - 2']
ONE = ['abs', 'sqr', 'round', 'floor', 'ceil', 'trunc', 'sign']


@dataclass(frozen=True)
class Scope:
    """The world, the sets that are controlled, and how much deeper an expression may go."""
    world: World
    controlled: tuple[str, ...] = ()
    depth: int = 3
    risk: float = 0.02      # the part of places where a step that may fail is written

    def with_sets(self, names: list[str]) -> 'Scope':
        """The scope in which these sets are controlled besides."""
        return replace(self, controlled=self.controlled + tuple(names))

    def deeper(self) -> 'Scope':
        """The scope one level below."""
        return replace(self, depth=self.depth - 1)


def joined(parts: list[Tokens], symbol: str = ',') -> Tokens:
    """The parts with a symbol between them."""
    result = list(parts[0])
    for part in parts[1:]:
        result += [symbol] + part
    return result


def in_parentheses(tokens: Tokens) -> Tokens:
    """The tokens between parentheses."""
    return ['('] + tokens + [')']


def amount(scope: Scope) -> Tokens:
    """The amount of a lag: a whole number, mostly."""
    draw = scope.world.draw
    if draw.chance(0.75) or scope.depth < 1:
        return [str(draw.weighted((8, 1), (3, 2), (1, 0), (1, 5)))]
    draw.note('lag by an expression')
    ordered = [it for it in scope.controlled if scope.world.symbols[it].is_ordered]
    if ordered and draw.chance(0.5):
        return ['(', draw.cased('ord'), '(', draw.pick(ordered), ')'] + draw.pick([[], ['-', '1'], ['-', '2']]) + [')']
    if draw.chance(scope.risk * 4):
        return in_parentheses(expression(scope.deeper()))
    return draw.pick([['(', '1', '+', '1', ')'], ['(', '-', '1', ')'], ['(', '2', ')']])


def index(scope: Scope, position: Optional[str], is_left: bool = False) -> Optional[Tokens]:
    """An index of this position: a controlled set, perhaps with a lag, or a label in marks."""
    world, draw = scope.world, scope.world.draw
    sets = [it for it in scope.controlled if world.is_below(it, position)]
    labels = [it for it in world.labels_at(position) if len(it) < 60]
    if sets and (not labels or draw.chance(0.85)):
        name = draw.pick(sets)
        draw.note('index set')
        if not world.symbols[name].is_ordered or draw.chance(0.85) or is_left and draw.chance(0.6):
            return [name]
        symbol = draw.pick(['+', '-', '-', '++', '--'])
        draw.note('lag ' + symbol)
        scalars = [it.name for it in world.of('scalar')]
        if is_left:
            own = draw.pick([[str(draw.between(0, 2))], ['(', '+', '1', ')'], ['(', '1', ')']])
            return [name, symbol] + ([draw.pick(scalars)] if scalars and draw.chance(scope.risk) else own)
        return [name, symbol] + amount(scope)
    if not labels:
        return None
    draw.note('index label')
    return [quoted(draw, draw.pick(labels))]


def reference(scope: Scope, symbol: Symbol, suffix: str = '', is_left: bool = False) -> Optional[Tokens]:
    """The symbol with its indices, or None where a position has none."""
    draw = scope.world.draw
    tokens = [draw.cased(symbol.name)] + (['.', suffix] if suffix else [])
    if not symbol.domain:
        return tokens
    indices = [index(scope, it, is_left) for it in symbol.domain]
    if any(it is None for it in indices):
        return None
    return tokens + in_parentheses(joined([it for it in indices if it]))


def control(scope: Scope, most: int = 2) -> Optional[tuple[Tokens, Scope]]:
    """A control of a fold or a loop, with the scope inside."""
    world, draw = scope.world, scope.world.draw
    free = [it for it in world.line_sets() if it.name not in scope.controlled and len(it.elements) < 7]
    if not free:
        return None
    chosen = draw.shuffled(draw.some(free, 1, draw.weighted((8, 1), (4, most))))
    names = [it.name for it in chosen]
    inner = scope.with_sets(names).deeper()
    draw.note('control of several sets' if len(names) > 1 else 'control of one set')
    tokens = in_parentheses(joined([[it] for it in names])) if len(names) > 1 or draw.chance(0.1) else [names[0]]
    if draw.chance(0.3):
        draw.note('control with a condition')
        tokens += guard(inner)
    return tokens, inner


def guard(scope: Scope) -> Tokens:
    """A `$` with its condition."""
    draw = scope.world.draw
    draw.note('condition')
    if draw.chance(0.12):
        draw.note('condition with not')
        return ['$', draw.cased('not')] + primary_condition(scope)
    return ['$'] + primary_condition(scope)


def primary_condition(scope: Scope) -> Tokens:
    """An operand that is a condition: a reference, or an expression in parentheses."""
    draw = scope.world.draw
    kinds = ('set', 'set', 'parameter', 'scalar')
    symbols = [it for it in scope.world.symbols.values() if it.kind in kinds]
    if symbols and draw.chance(0.5):
        found = reference(scope, draw.pick(symbols))
        if found:
            draw.note('set or parameter as a condition')
            return found
    return in_parentheses(logic(scope.deeper()))


def logic(scope: Scope) -> Tokens:
    """A condition, from `or` down."""
    draw = scope.world.draw
    if scope.depth < 1 or draw.chance(0.55):
        return claim(scope)
    words = ['or', 'or', 'xor', 'and', 'and']
    tokens = claim(scope)
    for _ in range(draw.weighted((4, 1), (1, 2))):
        word = draw.pick(words)
        draw.note(word)
        tokens += [draw.cased(word)] + claim(scope.deeper())
    return tokens


def claim(scope: Scope) -> Tokens:
    """A relation, a set with its indices, or a negation."""
    draw = scope.world.draw
    start = []
    if draw.chance(0.1):
        draw.note('not')
        start = [draw.cased('not')]
    sets = scope.world.of('set')
    if sets and draw.chance(0.25):
        found = reference(scope, draw.pick(sets))
        if found:
            draw.note('set as an operand of logic')
            return start + found
    if draw.chance(0.1) and scope.depth > 0:
        return start + in_parentheses(logic(scope.deeper()))
    tokens = start + total(scope.deeper())
    for _ in range(draw.weighted((9, 1), (1, 2), (1, 0))):
        symbol = draw.pick(RELATIONS)
        draw.note('relation ' + symbol)
        tokens += [symbol] + total(scope.deeper())
    return tokens


def expression(scope: Scope) -> Tokens:
    """A number, mostly a sum, now and then a condition as a number."""
    draw = scope.world.draw
    return logic(scope.deeper()) if draw.chance(0.06) and scope.depth > 0 else total(scope)


def total(scope: Scope) -> Tokens:
    """Products with signs between them."""
    draw = scope.world.draw
    tokens: Tokens = []
    if draw.chance(0.1):
        draw.note('sign of a sum')
        tokens = [draw.pick(['-', '-', '+'])]
    tokens += product(scope)
    while scope.depth > 0 and draw.chance(0.3):
        symbol = draw.pick(['+', '+', '-'])
        draw.note('sum ' + symbol)
        tokens += [symbol] + product(scope.deeper())
    return tokens


def product(scope: Scope) -> Tokens:
    """Powers with `*` and `/` between them."""
    draw = scope.world.draw
    tokens = power(scope)
    while scope.depth > 0 and draw.chance(0.22):
        if draw.chance(0.7):
            draw.note('product *')
            sign = ['-'] if draw.chance(0.08) else []
            tokens += ['*'] + sign + power(scope.deeper())
        else:
            draw.note('product /')
            sign = ['-'] if draw.chance(0.08) else []
            tokens += ['/'] + sign + (power(scope.deeper()) if draw.chance(scope.risk * 3) else [digits(draw)])
        if '-' in tokens[-3:-1]:
            draw.note('sign after * or /')
    return tokens


def power(scope: Scope) -> Tokens:
    """Guarded operands with `**` between them."""
    draw = scope.world.draw
    tokens = guarded(scope)
    if draw.chance(0.05):
        draw.note('power **')
        if draw.chance(scope.risk * 3):
            sign = draw.pick([[], ['-']])
            return tokens + ['**'] + sign + guarded(scope.deeper())
        tokens += ['**', str(draw.between(0, 3))]
        if draw.chance(0.15):
            tokens += ['**', draw.pick(['2', '1', '0'])]
    return tokens


def guarded(scope: Scope) -> Tokens:
    """An operand, perhaps with conditions after it."""
    draw = scope.world.draw
    tokens = operand(scope)
    while scope.depth > 0 and draw.chance(0.07):
        draw.note('guarded operand')
        tokens += guard(scope.deeper())
    return tokens


def own_guard(scope: Scope) -> Optional[Tokens]:
    """A division that only a condition keeps from a fault: after `$`, or in the right operand of
    `and` and `or`.
    """
    draw = scope.world.draw
    symbols = [it for it in scope.world.symbols.values() if it.kind in ('parameter', 'scalar')]
    found = reference(scope, draw.pick(symbols)) if symbols else None
    if not found:
        return None
    draw.note('guarded operand')
    over = ['(', '1', '/'] + found + [')']
    return draw.pick([over + ['$'] + found, ['2', '$'] + over + ['$'] + found, ['('] + found + ['and'] + over + [')'],
                      ['('] + found + ['=', '0', 'or'] + over + ['>', '0', ')']])


def operand(scope: Scope) -> Tokens:
    """A number, a reference, a call, a fold, or an expression in parentheses."""
    draw = scope.world.draw
    if draw.chance(0.03):
        draw.note('inf and na in an expression')
        return in_parentheses(draw.pick(SPECIAL).split())
    if draw.chance(0.02):
        return own_guard(scope) or literal(scope)
    found = draw.call(
        (30, lambda: literal(scope)), (40, lambda: any_reference(scope)), (8, lambda: call(scope)), (8, lambda: fold(scope)),
        (7, lambda: place_or_size(scope)), (3, lambda: in_parentheses(expression(scope.deeper())) if scope.depth > 0 else None))
    return found or literal(scope)


def literal(scope: Scope) -> Tokens:
    """A number, now and then an infinity or NA."""
    draw = scope.world.draw
    if draw.chance(scope.risk):
        draw.note('inf and na in an expression')
        return [draw.pick(['inf', 'na', 'INF'])]
    draw.note('number')
    return [number(draw)]


def any_reference(scope: Scope) -> Optional[Tokens]:
    """A parameter, a scalar, or an attribute."""
    world, draw = scope.world, scope.world.draw
    symbols = [it for it in world.symbols.values() if it.kind != 'set' or draw.chance(0.02)]
    usual = [it for it in symbols if it.kind in ('parameter', 'scalar')]
    if not symbols:
        return None
    symbol = draw.pick(usual) if usual and draw.chance(0.8) else draw.pick(symbols)
    if symbol.kind == 'set':
        found = reference(scope, symbol)
        return found + ['$', '1'] if found else None
    suffixes = {'variable': ['l', 'm', 'lo', 'up', 'l', 'l'], 'equation': ['l', 'm'], 'model': ['modelstat', 'solvestat']}
    suffix = draw.pick(suffixes[symbol.kind]) if symbol.kind in suffixes else ''
    if suffix in ('lo', 'up') and not draw.chance(0.4):
        suffix = 'l'
    draw.note('reference ' + symbol.kind, *(['suffix ' + suffix] if suffix else []))
    return reference(scope, symbol, suffix)


def call(scope: Scope) -> Optional[Tokens]:
    """A function with its arguments."""
    draw = scope.world.draw
    if scope.depth < 1:
        return None
    inner = scope.deeper()
    name = draw.pick(ONE + ['mod', 'power', 'max', 'min', 'max', 'min'])
    draw.note('function ' + name)
    if name in ('max', 'min'):
        arguments = [expression(inner) for _ in range(draw.weighted((4, 2), (1, 3)))]
    elif name in ('mod', 'power'):
        second = expression(inner) if draw.chance(scope.risk * 4) else [str(draw.between(1 if name == 'mod' else 0, 3))]
        arguments = [expression(inner), second]
    else:
        arguments = [expression(inner)]
    return [draw.cased(name)] + in_parentheses(joined(arguments))


def fold(scope: Scope) -> Optional[Tokens]:
    """A sum, a product, or an extreme over a control."""
    draw = scope.world.draw
    found = control(scope) if scope.depth > 0 else None
    if not found:
        return None
    tokens, inner = found
    name = draw.weighted((6, 'sum'), (1, 'prod'), (1, 'smin'), (1, 'smax'))
    if name in ('smin', 'smax') and '$' in tokens and not draw.chance(scope.risk * 4):
        name = 'sum'
    draw.note('fold ' + name)
    return [draw.cased(name), '('] + tokens + [','] + expression(inner) + [')']


def place_or_size(scope: Scope) -> Optional[Tokens]:
    """`ord` of a controlled set, or `card` of any."""
    world, draw = scope.world, scope.world.draw
    ordered = [it for it in scope.controlled if world.symbols[it].is_ordered]
    if ordered and draw.chance(0.7):
        draw.note('ord')
        return [draw.cased('ord'), '(', draw.pick(ordered), ')']
    sets = world.of('set')
    if not sets:
        return None
    draw.note('card')
    return ['card', '(', draw.pick(sets).name, ')']


def set_side(scope: Scope) -> Tokens:
    """The right side of a set: sets, `yes`, `no`, `+`, `-`, `*`, `not`, parentheses and conditions.
    """
    draw = scope.world.draw
    tokens = set_product(scope)
    if draw.chance(0.08):
        draw.note('sign in the right side of a set')
        tokens = ['+'] + tokens
    while draw.chance(0.3):
        symbol = draw.pick(['+', '-'])
        draw.note('set side ' + symbol)
        tokens += [symbol] + set_product(scope.deeper())
    return tokens


def set_product(scope: Scope) -> Tokens:
    """Parts of a set's right side with `*` between them."""
    draw = scope.world.draw
    tokens = set_part(scope)
    while draw.chance(0.15):
        draw.note('set side *')
        tokens += ['*'] + set_part(scope.deeper())
    return tokens


def set_part(scope: Scope) -> Tokens:
    """A set with its indices, `yes` or `no`, perhaps with a condition."""
    draw = scope.world.draw
    sets = scope.world.of('set')
    found = reference(scope, draw.pick(sets)) if sets and draw.chance(0.55) else None
    if draw.chance(0.1) and scope.depth > 0:
        draw.note('set side not')
        found = ['(', draw.cased('not')] + set_part(scope.deeper()) + [')']
    if not found:
        word = draw.pick(['yes', 'yes', 'no'])
        draw.note('set side ' + word)
        found = [draw.cased(word)]
    if draw.chance(0.4):
        draw.note('set side $')
        found += guard(scope)
    return found


def linear(scope: Scope, variables: list[Symbol]) -> Tokens:
    """A linear side over these variables."""
    draw = scope.world.draw
    tokens = [] if draw.chance(0.85) else ['-']
    tokens += linear_term(scope, variables)
    while draw.chance(0.55):
        tokens += [draw.pick(['+', '+', '-'])] + linear_term(scope, variables)
    return tokens


def linear_term(scope: Scope, variables: list[Symbol]) -> Tokens:
    """A variable with a coefficient, a sum over a set, or a constant."""
    draw = scope.world.draw
    if draw.chance(0.12):
        draw.note('constant in a side')
        return product(replace(scope, depth=min(scope.depth, 1), risk=scope.risk / 4))
    if draw.chance(0.25) and scope.depth > 0:
        found = control(scope)
        if found:
            draw.note('sum of variables')
            tokens, inner = found
            return ['sum', '('] + tokens + [','] + linear_factor(inner, variables) + [')']
    if draw.chance(0.06) and scope.depth > 0:
        draw.note('linear side in parentheses')
        return in_parentheses(linear(replace(scope, depth=0), variables))
    return linear_factor(scope, variables)


def linear_factor(scope: Scope, variables: list[Symbol]) -> Tokens:
    """A variable, with a number before or after it, or a condition; now and then a number over it,
    which is not linear.
    """
    draw = scope.world.draw
    found = reference(scope, draw.pick(variables))
    if not found:
        return [digits(draw)]
    draw.note('variable in a side')
    low = replace(scope, depth=min(scope.depth, 1), risk=scope.risk / 4)
    if draw.chance(0.08):
        found = found + guard(low)
        draw.note('variable with a condition')
    return draw.call(
        (5, lambda: found), (5, lambda: power(low) + ['*'] + found), (2, lambda: found + ['*'] + power(low)),
        (1, lambda: found + ['/', digits(draw)]), (1, lambda: [digits(draw), '*', '-'] + found),
        (scope.risk, lambda: [digits(draw), '/'] + found))
