"""Declarations: sets, data in lists and tables, variables, equations, models and aliases."""
from typing import Optional

from tests.random_sources.draw import Draw
from tests.random_sources.layout import KEYWORDS, digits, label, number
from tests.random_sources.world import Domain, Symbol, World

WORDS = ['north', 'south', 'east', 'west', 'new-york', 'chicago', 'San Jose', 'jan', 'feb', 'mar', 'a', 'b', 'c', 'x1', 'y', '1990', '7',
         'if', 'all', 'set', 'plus+', 'low_cost', 'b"c', "o'er", 'a.b', '', 'K', 'e5']
TEXTS = ['in tons', 'of plant i', '"half; of it"', "'any, text / here'", 'per year (net)', '= 5', 'caf\xe9', '5 and more', 'plans $ and *']


def text(draw: Draw) -> str:
    """Perhaps a text that explains a name."""
    if draw.chance(0.82):
        return ''
    draw.note('text of a name')
    return '  ' + draw.pick(TEXTS)


def domain_text(draw: Draw, domain: Domain) -> str:
    """A domain in parentheses, now and then over lines."""
    if not domain:
        return ''
    draw.note('domain', *('domain *' for it in domain if it is None))
    comma = draw.weighted((8, ','), (4, ', '), (0.2, ',\n  '))
    return draw.weighted((9, ''), (1, ' ')) + '(' + comma.join(it if it else '*' for it in domain) + ')'


def item_separator(draw: Draw) -> str:
    """Between the items of a declaration."""
    return draw.weighted((6, ', '), (2, ','), (3, '\n   '), (0.3, ',\n'), (0.1, '\n\n* a comment\n  '))


def element_separator(draw: Draw) -> str:
    """Between the elements of a list."""
    return draw.weighted((7, ', '), (3, ','), (2, '\n    '), (0.5, ',\n   '), (0.2, '\n  , '), (0.1, '\n\n*\n  '))


def listed(draw: Draw, parts: list[str]) -> str:
    """A list between its marks."""
    draw.note('list')
    text = parts[0]
    for part in parts[1:]:
        text += element_separator(draw) + part
    gap = draw.weighted((8, ' '), (3, ''), (1, '\n   '))
    return draw.weighted((8, ' '), (2, ''), (1, '\n   ')) + '/' + gap + text + gap + '/'


def new_labels(world: World) -> tuple[list[str], Optional[str]]:
    """Labels of a set to be, and how a range writes them where one does."""
    draw = world.draw
    if draw.chance(0.5):
        stem, first = draw.pick(['i', 't', 'n', 'p', 'q-', 'r_', '', '20', 'i', 't']), draw.weighted((8, 1), (1, 0), (1, 9), (1, 98))
        width = draw.weighted((8, 0), (1, 2), (1, 3))
        last = first + draw.between(0, 4)
        stem = '' if stem == '20' else stem
        labels = [stem + str(it).zfill(width) for it in range(first, last + 1)]
        if not stem and width:
            labels = [str(it) for it in range(first, last + 1)]
        return labels, '%s%s*%s' % (label(draw, labels[0]), draw.weighted((9, ''), (1, ' ')), label(draw, labels[-1]))
    words = draw.shuffled(WORDS)[:draw.between(1, 4)]
    if world.labels and draw.chance(0.4):
        words += draw.some(world.labels, 1, 2)
    lowered: dict[str, str] = {}
    for word in words:
        lowered.setdefault(word.lower(), word)
    return list(lowered.values()), None


def domain_of(world: World, most: int, is_starred: float = 0.12) -> Domain:
    """A domain of at most n positions."""
    draw = world.draw
    sets = [it.name for it in world.domain_sets()]
    size = draw.weighted((6, 1), (3, 2), (1, 3), (0.1, 4))
    return [None if not sets or draw.chance(is_starred) else draw.pick(sets) for _ in range(min(size, most))]


def tuples_over(world: World, domain: Domain) -> list[tuple[str, ...]]:
    """Some elements of a domain, without repetition."""
    draw = world.draw
    positions = [world.labels_at(it) for it in domain]
    if not all(positions):
        return []
    found: dict[tuple[str, ...], tuple[str, ...]] = {}
    for _ in range(draw.between(1, 6)):
        element = tuple(draw.pick(it) for it in positions)
        found.setdefault(tuple(it.lower() for it in element), element)
    return list(found.values())


def element_text(draw: Draw, element: tuple[str, ...]) -> str:
    """An element with dots, now and then with blanks around them."""
    if len(element) > 1:
        draw.note('element of several labels')
    dot = draw.weighted((9, '.'), (1, ' . ')) if len(element) > 1 else '.'
    return dot.join(label(draw, it) for it in element)


def set_item(world: World) -> str:
    """A set: one of new labels, a subset, one of several dimensions, or one without
    elements.
    """
    draw = world.draw
    kind = draw.weighted((5, 'own'), (3, 'subset'), (2.4, 'several'), (0.5, 'empty'))
    if kind == 'own' or not world.domain_sets():
        symbol = Symbol(world.fresh(draw.pick(['i', 'j', 'k', 't', 'plants'])), 'set', [None], is_dynamic=draw.chance(0.08))
        labels, short = new_labels(world)
        symbol.elements = [(it,) for it in labels]
        if short:
            draw.note('range')
            symbol.short = short
        parts = [short] if short else [label(draw, it) + element_note(draw) for it in labels]
        world.add(symbol)
        return symbol.name + draw.weighted((8, ''), (1, '(*)')) + text(draw) + listed(draw, parts)
    domain = domain_of(world, 1, 0) if kind != 'several' else (domain_of(world, 3) + domain_of(world, 1))[:3]
    symbol = Symbol(world.fresh(draw.pick(['s', 'sub', 'link', 'u'])), 'set', domain, is_dynamic=draw.chance(0.55))
    head = symbol.name + domain_text(draw, domain) + text(draw)
    if kind == 'empty' or symbol.is_dynamic and draw.chance(0.5):
        world.add(symbol)
        return head
    return head + subset_list(world, symbol)


def element_note(draw: Draw) -> str:
    """Perhaps a text of an element."""
    if draw.chance(0.93):
        return ''
    draw.note('text of an element')
    return ' ' + draw.pick(['the first', '"quoted, text"', '(b)', '- d', '5 tons', 'n\xe9'])


def subset_list(world: World, symbol: Symbol) -> str:
    """The elements of a set with a domain, one by one or as products of lists of labels; they
    become the symbol's.
    """
    draw = world.draw
    symbol.elements = tuples_over(world, symbol.domain)
    parts = [element_text(draw, it) + element_note(draw) for it in symbol.elements]
    if len(symbol.domain) == 2 and draw.chance(0.4):
        draw.note('list of labels in parentheses')
        positions = [draw.some(world.labels_at(it), 1, 3) for it in symbol.domain]
        symbol.elements = [(first, second) for first in positions[0] for second in positions[1]]
        parts = ['.'.join(in_parentheses(draw, it) for it in positions)]
    world.add(symbol)
    return listed(draw, parts) if parts else ''


def in_parentheses(draw: Draw, labels: list[str]) -> str:
    """A list of labels in parentheses; one label may do without."""
    if len(labels) == 1 and draw.chance(0.7):
        return label(draw, labels[0])
    return '(' + draw.weighted((8, ','), (2, ', '), (0.4, ',\n  ')).join(label(draw, it) for it in labels) + ')'


def value(draw: Draw) -> str:
    """A number of a data list."""
    if draw.chance(0.05):
        draw.note('inf and na in data')
        return draw.pick(['inf', '-inf', 'na', 'na', '+ inf', 'INF', 'NA'])
    return draw.weighted((10, ''), (1.5, '-'), (0.5, '+'), (0.4, '- ')) + number(draw)


def entry_value(draw: Draw) -> str:
    """A number after its element."""
    written = value(draw)
    return draw.weighted((8, ' '), (2, ' = '), (1, '=')) + written


def parameter_item(world: World) -> str:
    """A parameter with a domain, and perhaps with data; now and then one without a domain."""
    draw = world.draw
    domain = domain_of(world, 4)
    if draw.chance(0.06):
        domain = []
    symbol = Symbol(world.fresh(draw.pick(['p', 'cap', 'cost', 'w', 'rate'])), 'parameter', domain)
    head = symbol.name + domain_text(draw, domain) + text(draw)
    parts = []
    if domain and draw.chance(0.75):
        symbol.elements = tuples_over(world, domain)
        parts = [element_text(draw, it) + entry_value(draw) for it in symbol.elements]
        if len(domain) == 1 and domain[0] and world.symbols[domain[0]].short and draw.chance(0.2):
            parts = [world.symbols[domain[0]].short + entry_value(draw)]
        if len(domain) == 2 and draw.chance(0.12) and symbol.elements:
            draw.note('list of labels in parentheses')
            positions = [draw.some(world.labels_at(it), 1, 3) for it in domain]
            parts = ['.'.join(in_parentheses(draw, it) for it in positions) + entry_value(draw)]
    world.add(symbol)
    return head + (listed(draw, parts) if parts else '')


def scalar_item(world: World) -> str:
    """A scalar, perhaps with its number."""
    draw = world.draw
    symbol = world.add(Symbol(world.fresh(draw.pick(['a', 'b', 'f', 'total', 'l', 'mip'])), 'scalar'))
    head = symbol.name + text(draw)
    return head + listed(draw, [value(draw)]) if draw.chance(0.6) else head


def variable_item(world: World, type: str) -> str:
    """A variable."""
    draw = world.draw
    domain = domain_of(world, 3) if draw.chance(0.7) else []
    symbol = Symbol(world.fresh(draw.pick(['x', 'y', 'z', 'flow', 'v'])), 'variable', domain, type=type)
    world.add(symbol)
    return symbol.name + domain_text(draw, domain) + text(draw)


def equation_item(world: World) -> str:
    """An equation."""
    draw = world.draw
    domain = domain_of(world, 2) if draw.chance(0.5) else []
    symbol = world.add(Symbol(world.fresh(draw.pick(['e', 'supply', 'demand', 'obj'])), 'equation', domain))
    return symbol.name + domain_text(draw, domain) + text(draw)


def items(draw: Draw, word: str, parts: list[str]) -> str:
    """A declaration of these items."""
    text = draw.cased(word) + draw.weighted((6, ' '), (2, '\n   '), (0.5, '\t')) + parts[0]
    for part in parts[1:]:
        text += item_separator(draw) + part
    return text


def declaration(world: World) -> str:
    """A declaration of any kind; a table is a separate one."""
    draw = world.draw
    kind = draw.weighted((4, 'set'), (4, 'parameter'), (2.5, 'scalar'), (2, 'variable'), (1, 'equation'))
    draw.note('declaration ' + kind)
    count = draw.weighted((3, 1), (3, 2), (1, 3))
    words = {'set': ['set', 'sets'], 'parameter': ['parameter', 'parameters'], 'scalar': ['scalar', 'scalars'],
             'variable': ['variable', 'variables'], 'equation': ['equation', 'equations']}
    word = draw.pick(words[kind])
    if kind == 'variable':
        type = draw.weighted((4, ''), (4, 'positive'), (2, 'negative'), (1, 'free'))
        draw.note('type ' + (type or 'left out'))
        parts = [variable_item(world, type or 'free') for _ in range(count)]
        return items(draw, (type + ' ' + word).strip(), parts)
    makers = {'set': set_item, 'parameter': parameter_item, 'scalar': scalar_item, 'equation': equation_item}
    return items(draw, word, [makers[kind](world) for _ in range(count)])


def retype(world: World) -> Optional[str]:
    """A type for a variable that is free so far."""
    draw = world.draw
    free = [it for it in world.of('variable') if it.type == 'free']
    if not free:
        return None
    symbol = draw.pick(free)
    symbol.type = draw.pick(['positive', 'negative'])
    draw.note('type given once more')
    return '%s variable %s%s' % (symbol.type, symbol.name, draw.pick(['', domain_text(draw, symbol.domain)]))


def alias(world: World) -> Optional[str]:
    """An alias of a set."""
    draw = world.draw
    if not world.of('set'):
        return None
    old = draw.pick(world.of('set'))
    new = Symbol(world.fresh(draw.pick(['k', 'ii', 'other'])), 'set', old.domain, old.elements, old.is_dynamic, base=old.base)
    world.add(new)
    draw.note('alias')
    pair = [old.name, new.name]
    if draw.chance(0.3):
        pair.reverse()
        draw.note('alias in the other order')
    return '%s(%s,%s)' % (draw.cased('alias'), pair[0], pair[1])


def table(world: World) -> Optional[str]:
    """A table of one or more blocks of headings; it ends without a line end."""
    draw = world.draw
    domain = domain_of(world, 2, 0.1) + domain_of(world, 1, 0.1)
    rows = [it for it in tuples_over(world, domain[:-1]) if all(bare_row(part) for part in it)]
    heads = [it[0] for it in tuples_over(world, domain[-1:])]
    if not rows or not heads:
        return None
    if len(domain) > 2 and domain[0] is None:
        # A word that begins a statement is a label before a dot.
        rows[0] = (draw.pick([it for it in sorted(KEYWORDS) if it not in world.order]),) + rows[0][1:]
    symbol = Symbol(world.fresh(draw.pick(['d', 'dist', 'yield'])), 'parameter', domain)
    draw.note('table')
    lines = ['%s %s%s%s' % (draw.cased('table'), symbol.name, domain_text(draw, domain).replace('\n', ''), text(draw))]
    blocks = [heads] if len(heads) < 2 or draw.chance(0.7) else [heads[:1], heads[1:]]
    for place, block in enumerate(blocks):
        lines += table_block(draw, rows, block, is_first=not place)
    world.add(symbol)
    for element in rows:
        for it in element:
            world.enter(it)
    for it in heads:
        world.enter(it)
    return '\n'.join(lines)


def bare_row(text: str) -> bool:
    """Whether a label goes well in a table."""
    return '"' not in text and "'" not in text


def table_block(draw: Draw, rows: list[tuple[str, ...]], heads: list[str], is_first: bool) -> list[str]:
    """A line of headings, and the rows below them."""
    shown = ['.'.join(label(draw, part, len(row) == 1) for part in row) for row in rows]
    words = [label(draw, it, True) for it in heads]
    left = max(len(it) for it in shown) + draw.between(3, 6)
    width = max([len(it) for it in words] + [7]) + 2
    start = ' ' * left if is_first else '+' + ' ' * (left - 1)
    if not is_first:
        draw.note('table with more headings')
    lines = [start + ''.join(it.rjust(width) for it in words).rstrip()]
    for row in shown:
        cells = []
        for _ in words:
            sign = draw.weighted((8, ''), (1, '-'), (0.5, '+'))
            cells.append((sign + digits(draw)[:6] if draw.chance(0.75) else '').rjust(width))
        if draw.chance(0.02):
            # a number right after the last column of a heading: it is under none
            cells = [' ' * (width * draw.between(1, len(words))) + digits(draw)[:1]]
        lines.append((row.ljust(left) + ''.join(cells)).rstrip())
        if draw.chance(0.04):
            lines.append(draw.pick(['* a comment in a table', '', '$eject']))
    return lines


def model(world: World) -> Optional[str]:
    """A model of defined equations: all of them where all that are declared are, or some."""
    draw = world.draw
    equations = world.of('equation')
    defined = [it.name for it in equations if it.is_defined]
    symbol = Symbol(world.fresh(draw.pick(['m', 'plan', 'ship'])), 'model')
    word = draw.pick(['model', 'models'])
    draw.note('model')
    if not defined or draw.chance(0.09):
        draw.note('model without equations')
        world.add(symbol)
        return '%s %s' % (word, symbol.name)
    if len(defined) == len(equations) and draw.chance(0.7):
        draw.note('model of all')
        parts = ['all']
    else:
        parts = draw.shuffled(draw.some(defined, 1, 9))
        if draw.chance(0.1):
            parts.append(parts[0])
    world.add(symbol)
    return '%s %s%s%s' % (word, symbol.name, text(draw), listed(draw, parts))
