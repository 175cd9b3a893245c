"""A seed's scenario: files, and runs of the program over them in one folder, in turn."""
from collections import Counter
from dataclasses import dataclass, field
from typing import Optional

from tests.random_sources import mistakes, models, sources
from tests.random_sources.draw import Draw
from tests.random_sources.world import World


@dataclass
class Step:
    """The words of the run, the files that are put there, and if a save is changed, its name, the
    name of the changed copy, and the seed of the change.
    """
    words: list[str]
    files: dict[str, bytes] = field(default_factory=dict)
    damage: Optional[tuple[str, str, int]] = None


@dataclass
class Scenario:
    """The steps, and the productions that their sources have."""
    steps: list[Step]
    notes: Counter[str]


def encoded(text: str) -> bytes:
    """The bytes of a source; a character is one byte."""
    return text.encode('latin-1')


def one(draw: Draw, text: str, words: Optional[list[str]] = None) -> Scenario:
    """A run of one source."""
    return Scenario([Step(words or ['a.gms'], {'a.gms': encoded(text)})], draw.notes)


def with_ranges(draw: Draw) -> list[str]:
    """The words of a run with solves."""
    return draw.weighted((4, ['a.gms']), (4, ['--ranges', 'a.gms']), (0.3, ['a.gms', '--ranges', '--out=b.lst']))


def right(draw: Draw) -> Scenario:
    """A source that is right."""
    return one(draw, sources.program(draw, draw.between(5, 18))[0])


def solved(draw: Draw) -> Scenario:
    """A source of a chosen shape with solves."""
    return one(draw, models.any_model(draw), with_ranges(draw))


def changed(draw: Draw) -> Scenario:
    """A source that was right before a few tokens or lines were changed."""
    text = models.any_model(draw) if draw.chance(0.25) else sources.program(draw, draw.between(3, 10))[0]
    draw.notes.clear()
    return one(draw, mistakes.changed(draw, text))


def nearly(draw: Draw, kind: str, number: int) -> Scenario:
    """A source with a piece that has this error, now and then with two or changed."""
    is_alone = number not in usual(kind) or draw.chance(0.2)
    text = '' if is_alone else sources.program(draw, draw.between(2, 7))[0]
    draw.notes.clear()
    text = mistakes.among(draw, text, mistakes.piece(draw, kind, number)) if text else mistakes.piece(draw, kind, number)
    if draw.chance(0.06) and number in usual(kind):
        other = draw.pick(['source', 'compile', 'execution'])
        text = mistakes.among(draw, text, mistakes.piece(draw, other, draw.pick(list(usual(other)))))
    if draw.chance(0.06) and number in usual(kind):
        text = mistakes.changed(draw, text)
    return one(draw, text)


def usual(kind: str) -> list[int]:
    """The errors of a kind whose pieces are short."""
    tables = {'source': mistakes.SOURCE, 'compile': mistakes.COMPILE, 'execution': mistakes.EXECUTION}
    return [it for it in tables[kind] if not (kind == 'source' and it in (5, 15) or kind == 'execution' and it in (7, 8, 9))]


# Changed copies of a save.
CHANGES = 3


def resumed(draw: Draw, turn: Optional[int] = None) -> Scenario:
    """A source whose last state is saved, and one or two that restart from it. With a turn, runs
    restart from three changed copies of the save before.
    """
    first, world = start(draw)
    steps = [Step(['--save', 's.sav', 'a.gms'], {'a.gms': encoded(first)})]
    sources = [encoded(restarting(draw, world)) for _ in range(draw.weighted((3, 1), (1, 2)))]
    for change in [] if turn is None else range(CHANGES * turn, CHANGES * turn + CHANGES):
        steps.append(Step(['--restart', 'u.sav', '--save', 't.sav', 'b.gms'], {'b.gms': sources[0]}, ('s.sav', 'u.sav', change)))
    for name, source in zip(('b.gms', 'c.gms'), sources):
        words = ['--restart', 's.sav'] + draw.weighted((2, []), (3, ['--save', 's.sav']), (1, ['--save=t.sav']), (0.5, ['--ranges'])) + [name]
        steps.append(Step(words, {name: source}))
    return Scenario(steps, draw.notes)


def start(draw: Draw) -> tuple[str, World]:
    """The source that is saved: any that is right, or one with solves."""
    if draw.chance(0.7):
        text, world = sources.program(draw, draw.between(4, 12))
        return text + draw.pick(['', '', ';\noption solprint = off, lp = dantzig, decimals = 2;']), world
    return models.any_model(draw), World(draw)


def restarting(draw: Draw, world: World) -> str:
    """A source that restarts: further statements over the names of the first, and now and then what
    only one file may have.
    """
    text, _ = sources.program(draw, draw.between(2, 7), world)
    if not world.of('model') and draw.chance(0.6):
        text += draw.pick(['', '\noption limrow = 0;\nsolve m using lp maximizing z; display z.l, z.m, z.up;', '\ndisplay m.modelstat;'])
    names = world.of('variable') + world.of('set')
    if names and draw.chance(0.2):
        symbol = draw.pick(names)
        type = draw.pick(['positive variable %s;', 'variable %s;', 'binary variable %s;'])
        text += '\n' + (type % symbol.name if symbol.kind == 'variable' else '%s("%s") = no;' % (symbol.name, draw.pick(world.labels + ['q'])))
    return mistakes.changed(draw, text) if draw.chance(0.12) else text


USAGE = [[], ['--help'], ['a.gms', 'b.gms'], ['--out', 'a.gms'], ['--generate', '31'], ['--generate', '01'], ['--generate', '2', 'a.gms'], ['--ranges=1', 'a.gms'],
         ['--out', 'x.lst', '--out', 'y.lst', 'a.gms'], ['--restart', 's.sav', '--generate', '2'], ['-x', 'a.gms'], ['--save'], ['--out', '-x', 'a.gms'],
         ['--generate', '+1'], ['--ranges', '--ranges', 'a.gms'], ['--version'], ['--restart=', '--save', 's.sav'], ['--generate=0']]
WORDS = [['none.gms'], ['--restart', 'none.sav', 'a.gms'], ['--restart', 'a.gms', 'a.gms'], ['--out', 'x.lst', 'a.gms'], ['a.gms', '--out=y'], ['--', 'a.gms'],
         ['--out=-x', 'a.gms'], ['--out', '-', 'a.gms'], ['--out', 'none/x.lst', 'a.gms'], ['--save', 'none/x.sav', 'a.gms'], ['--out', 'a.gms', 'a.gms'],
         ['--generate', '2'], ['--generate=3', '--ranges'], ['--out', 'g.lst', '--generate', '1'], ['--save', 'g.sav', '--generate', '2'], ['a'], ['a.GMS'],
         ['--save', 'a.lst', 'a.gms'], ['']]


def worded(draw: Draw, turn: int) -> Scenario:
    """Runs with words of any kind, in one folder."""
    text = encoded(sources.program(draw, draw.between(1, 4))[0])
    runs = [WORDS[(3 * turn + it) % len(WORDS)] for it in range(3)] + [USAGE[(2 * turn + it) % len(USAGE)] for it in range(2)]
    files = {name: text for name in ('a.gms', 'a', 'a.GMS')}
    return Scenario([Step(words, dict(files)) for words in runs], Counter())


def large(draw: Draw, which: int) -> Scenario:
    """A source that meets a limit of size."""
    blanks = encoded((' ' * 63 + '\n') * 16384)
    made = [lambda: Scenario([Step(['a.gms'], {'a.gms': blanks + b' '})], Counter()), lambda: nearly(draw, 'source', 15),
            lambda: nearly(draw, 'execution', 7), lambda: nearly(draw, 'execution', 8), lambda: nearly(draw, 'execution', 9),
            lambda: nearly(draw, 'source', 5),
            lambda: Scenario([Step(['--restart', 's.sav', 'a.gms'], {'s.sav': b' ' * 67108865, 'a.gms': b'display "x";'})], Counter())]
    return made[which % len(made)]()


# Seeds of diets to which later rules of `any` have the answer.
DIETS = [604, 380, 7, 96, 282, 89]
# Columns, and how many of them have an upper bound.
CROWDS = [(150, 9), (300, 300), (70, 70), (90, 60), (600, 600)]


def scenario(seed: int) -> Scenario:
    """The scenario of a seed. Seeds go through the kinds in turn, so that any 300 in a row have
    each kind and nearly each error.
    """
    draw = Draw(seed)
    kind, turn = seed % 20, seed // 20
    if kind < 5:
        return right(draw)
    if kind < 7:
        return solved(draw)
    if kind < 9:
        text = models.whole(draw, turn) if kind == 8 else models.refused(draw, turn)
        if kind == 7 and turn % 3 == 2:
            text = models.turning(draw, turn // 3 % 7)
        if kind == 7 and turn % 9 == 7:
            text = models.crowded(draw, *CROWDS[turn // 9 % len(CROWDS)])
        if kind == 7 and turn % 9 == 3:
            text = models.alike(draw)
        if kind == 7 and turn % 9 == 4:
            text = models.diet(draw if turn % 2 else Draw(DIETS[turn // 18 % len(DIETS)]))
        return one(draw, text, ['--ranges', 'a.gms'])
    if kind < 12:
        return changed(draw)
    if kind < 14:
        return resumed(draw, turn if kind == 12 else None)
    if kind < 16:
        return nearly(draw, 'source', pick_in_turn(usual('source'), 2 * turn + kind))
    if kind < 18:
        return nearly(draw, 'compile', pick_in_turn(usual('compile'), 2 * turn + kind))
    if kind == 18:
        return nearly(draw, 'execution', pick_in_turn(usual('execution'), turn))
    return worded(draw, turn // 2) if turn % 2 else large(draw, turn // 2)


def pick_in_turn(items: list[int], turn: int) -> int:
    """The items in turn."""
    return items[turn % len(items)]
