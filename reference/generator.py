"""The transport model of `--generate N` (docs/internals/DESIGN.md, "Generated models").

With N plants and N markets: first the demand of each market, 10 and a draw below 90; then the
supply of each plant, the sum of demands over N rounded down, 1 and a draw below 10; then the cost
of each plant and market, plant by plant, 1 and a draw below 50.
"""
from typing import Callable

MODEL = '''positive variable x(p,m); variable z;
equations cost, supply(p), demand(m);
cost.. z =e= sum((p,m), c(p,m)*x(p,m));
supply(p).. sum(m, x(p,m)) =l= a(p);
demand(m).. sum(p, x(p,m)) =g= b(m);
model t /all/;
option iterlim = 100000, limrow = 0, limcol = 0;
solve t using lp minimizing z;
'''


def draws(seed: int) -> Callable[[int], int]:
    """Draws below a number: the state s becomes 1103515245 s + 12345 modulo 2^31, and a draw is s /
    65536 modulo the number.
    """
    state = [seed]

    def draw(below: int) -> int:
        state[0] = (1103515245 * state[0] + 12345) % 2 ** 31
        return state[0] // 65536 % below
    return draw


def generated(size: int) -> str:
    """The text of the model; the seed is its size."""
    draw = draws(size)
    names = range(1, size + 1)
    demands = [10 + draw(90) for _ in names]
    supplies = [sum(demands) // size + 1 + draw(10) for _ in names]
    lines = ['set p /p1*p%d/;' % size, 'set m /m1*m%d/;' % size, 'parameter b(m) /']
    lines += ['m%d %d' % pair for pair in zip(names, demands)] + ['/;', 'parameter a(p) /']
    lines += ['p%d %d' % pair for pair in zip(names, supplies)] + ['/;', 'parameter c(p,m) /']
    lines += ['p%d.m%d %d' % (plant, market, 1 + draw(50)) for plant in names for market in names] + ['/;']
    return '\n'.join(lines) + '\n' + MODEL
