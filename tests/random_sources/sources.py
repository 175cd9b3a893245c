"""Whole sources that are right, or meant to be: declarations and statements in any order, with
models and solves among them.
"""
from typing import Optional

from tests.random_sources import declarations, statements
from tests.random_sources.draw import Draw
from tests.random_sources.expressions import Scope
from tests.random_sources.layout import laid
from tests.random_sources.world import Symbol, World

# A statement's text, and whether it begins with a keyword.
Statement = tuple[str, bool]
HEADS = ['* a head\n', '$title A model\n', '$offsymxref\n', '$ontext\n  any ? "text\n$offtext\n', '$OFFLISTING\n\n', '*\n*caf\xe9\n',
         '$eject\n$onupper\n$offupper\n$onlisting\n$offsymlist\n', '$offtext\n', '$TITLE\tx\n\t\n']


def statement(world: World) -> Optional[Statement]:
    """A statement, whose names are declared after it."""
    draw, scope = world.draw, Scope(world, (), draw_depth(world.draw))
    kind = draw.weighted((12, 'assignment'), (4, 'display'), (6, 'declaration'), (2, 'loop'), (1, 'option'), (0.5, 'abort'),
                         (1.3, 'alias'), (1, 'table'), (0.3, 'retype'))
    if kind == 'declaration':
        return declarations.declaration(world), True
    if kind in ('alias', 'table', 'retype'):
        made = {'alias': declarations.alias, 'table': declarations.table, 'retype': declarations.retype}[kind](world)
        return (made, True) if made else None
    makers = {'assignment': statements.assignment, 'display': statements.display, 'loop': statements.loop,
              'option': statements.option, 'abort': statements.abort}
    tokens = makers[kind](scope)
    return (laid(draw, tokens), kind != 'assignment') if tokens else None


def draw_depth(draw: Draw) -> int:
    """How deep the expressions of a statement go."""
    return draw.weighted((2, 1), (5, 2), (3, 3), (0.5, 4))


def modelling(world: World) -> list[Statement]:
    """Variables and equations, definitions of all equations, a model, and solves of it."""
    draw = world.draw
    parts: list[Statement] = []
    objectives = [it for it in world.of('variable') if not it.domain and it.type == 'free']
    if not objectives or draw.chance(0.3):
        objectives = [world.add(Symbol(world.fresh('z'), 'variable'))]
        parts.append(('variable ' + objectives[0].name, True))
    if draw.chance(0.7):
        type = draw.pick(['positive', 'negative', 'free'])
        names = [declarations.variable_item(world, type) for _ in range(draw.between(1, 2))]
        parts.append((declarations.items(draw, type + ' variables', names), True))
    names = [declarations.equation_item(world) for _ in range(draw.between(1, 3))]
    parts.append((declarations.items(draw, 'equations', names), True))
    for symbol in world.of('equation'):
        if not symbol.is_defined:
            tokens = statements.definition(Scope(world, (), draw.between(1, 2)), symbol, world.of('variable'))
            parts.append((laid(draw, tokens), False))
    parts.append((declarations.model(world), True))
    return parts + solving(world, world.of('model')[-1].name, objectives)


def solving(world: World, model: str, objectives: list[Symbol]) -> list[Statement]:
    """Solves of a model, in a loop now and then, with assignments and displays between them."""
    draw = world.draw
    parts: list[Statement] = []
    for _ in range(draw.weighted((4, 1), (2, 2))):
        if draw.chance(0.5):
            parts.append((laid(draw, statements.option(Scope(world))), True))
        tokens = statements.solve(world, model, draw.pick(objectives).name)
        inner = statements.solving_loop(Scope(world, (), 2), tokens) if draw.chance(0.2) else None
        parts.append((laid(draw, inner or tokens), True))
        for make in (statements.display, statements.assignment):
            made = make(Scope(world, (), 2))
            if made and draw.chance(0.6):
                parts.append((laid(draw, made), make is statements.display))
    return parts


def joined(draw: Draw, parts: list[Statement]) -> str:
    """The statements with `;` between them, which is left out now and then before a keyword."""
    text = ''
    for place, (part, _) in enumerate(parts):
        next_is_keyword = place + 1 < len(parts) and parts[place + 1][1]
        if next_is_keyword and draw.chance(0.12):
            draw.note('statement without ;')
            text += part + '\n'
        else:
            text += part + draw.weighted((8, ';'), (1, ' ;'), (0.3, ';;')) + draw.weighted((6, '\n'), (2, ' '), (0.5, '\n\n* a comment\n'))
    if draw.chance(0.1):
        text = text.rstrip().rstrip(';')
        draw.note('last statement without ;')
    return text


def program(draw: Draw, count: int, world: Optional[World] = None) -> tuple[str, World]:
    """A source of about n statements, and what it declares, perhaps besides what is declared
    already.
    """
    parts: list[Statement] = []
    if world is None or not world.symbols:
        world = world or World(draw)
        parts = [(declarations.declaration(world), True) for _ in range(draw.between(2, 4))]
    while len(parts) < count:
        made = statement(world)
        if made:
            parts.append(made)
    if draw.chance(0.5):
        parts += modelling(world)
        parts += [it for it in (statement(world) for _ in range(draw.between(0, 4))) if it]
    if draw.chance(0.25):
        parts.append(('option decimals = %d' % draw.between(0, 8), True))
    names = [it.name + ('.l' if it.kind in ('variable', 'equation') else '.modelstat' if it.kind == 'model' else '')
             for it in world.symbols.values()]
    if names:
        parts.append(('display ' + ', '.join(names), True))
    if draw.chance(0.05):
        parts.append((laid(draw, statements.abort(Scope(world, (), 2), True)), True))
    text = joined(draw, parts)
    if draw.chance(0.2):
        draw.note('comments and control lines')
        text = draw.pick(HEADS) + text
    if draw.chance(0.02):
        text += '\nscalar %s; %s = %s1%s; display %s;' % ('n' * 63, 'n' * 63, '(' * 100, ')' * 100, 'N' * 63)
    if draw.chance(0.05):
        text = text.replace('\n', '\r\n')
    return text, world
