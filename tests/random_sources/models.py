"""Sources with linear programs of chosen shapes: small, degenerate, stalling, planning, and with
numbers near the limit.
"""
from tests.random_sources.draw import Draw

HUGE = ['1.6e38', '0.9e38', '8e37', '2**126', '2**125', '2**64', '1e38', '3**79', '1/3**79', '10**37', '170141183460469231731687303715884105727', '1e-38', '2**100',
        '9223372036854775807', '18446744073709551557', '1000003**6', '1/1000003**6', '(2**61 - 1)', '(2**61 - 1)/(2**89 - 1)']


def coefficient(draw: Draw, is_huge: float = 0.0) -> str:
    """A number that is before a variable; it has no sign."""
    if draw.chance(is_huge):
        return draw.pick(HUGE)
    return draw.call((8, lambda: str(draw.between(1, 9))), (2, lambda: '%d.%d' % (draw.between(0, 9), draw.between(1, 9))),
                     (1, lambda: '1/%d' % draw.between(2, 9)), (0.4, lambda: str(draw.between(10, 999))))


def terms(draw: Draw, names: list[str], is_huge: float = 0.0) -> str:
    """A sum over some of the names, which is never empty."""
    parts = []
    for name in draw.some(names, 1, len(names)):
        sign = draw.weighted((3, '+'), (1, '-'))
        number = '' if draw.chance(0.3) else coefficient(draw, is_huge) + '*'
        parts.append('%s %s%s' % (sign, number, name))
    return ' '.join(parts).removeprefix('+ ')


def bounds(draw: Draw, names: list[str], is_huge: float = 0.0) -> str:
    """Bounds of some variables, now and then crossed ones."""
    text = ''
    for name in names:
        low = draw.between(-4, 3)
        if draw.chance(0.22):
            text += ' %s.lo = %s;' % (name, draw.weighted((6, str(low)), (is_huge * 20, draw.pick(HUGE)), (0.5, '-inf'), (1, '-1/3')))
        if draw.chance(0.28):
            text += ' %s.up = %s;' % (name, draw.weighted((8, str(low + draw.between(-1 if draw.chance(0.1) else 0, 6))),
                                                          (is_huge * 20, draw.pick(HUGE)), (0.5, 'inf'), (1, '7/2')))
        if draw.chance(0.04):
            text += ' %s.fx = %s;' % (name, low)
    return text


def settings(draw: Draw) -> str:
    """Options before a solve."""
    parts = []
    if draw.chance(0.45):
        parts += ['limrow = %s' % draw.pick(['0', '1', '2', '50']), 'limcol = %s' % draw.pick(['0', '1', '2', '50'])]
    if draw.chance(0.3):
        parts.append('lp = %s' % draw.pick(['dantzig', 'steepest', 'any', 'bland', 'DANTZIG']))
    if draw.chance(0.22):
        parts.append('iterlim = %d' % draw.weighted((1, 0), (2, 1), (2, 2), (2, 3), (1, 4), (1, 6)))
    if draw.chance(0.12):
        parts.append('solprint = %s' % draw.pick(['off', 'on']))
    if draw.chance(0.08):
        parts.append('decimals = %d' % draw.between(0, 8))
    return '\noption %s;' % ', '.join(parts) if parts else ''


def solve(draw: Draw, model: str, objective: str) -> str:
    """A solve in one of its two forms."""
    way = draw.pick(['minimizing', 'maximizing'])
    draw.note('solve ' + way)
    if draw.chance(0.5):
        draw.note('solve with using first')
        return '\nsolve %s using lp %s %s;' % (model, way, objective)
    draw.note('solve with using last')
    return '\nsolve %s %s %s using lp;' % (model, way, objective)


def declared(draw: Draw, names: list[str]) -> str:
    """Variables of any type, and z, which is free."""
    text = ''
    for type in ('positive', 'positive', 'free', 'negative'):
        chosen = [it for it in names if draw.chance(0.5)] if type != 'negative' else list(names)
        if draw.chance(0.75) and type == 'negative':
            text += 'positive variables %s;\n' % ', '.join(names) if names else ''
            break
        if chosen:
            text += '%s variables %s;\n' % (type, ', '.join(chosen))
            names = [it for it in names if it not in chosen]
    return text + 'variable z;\n'


def small(draw: Draw, is_huge: float = 0.0, is_degenerate: bool = False) -> str:
    """Equations without indices over a few variables, all of whose numbers are drawn."""
    names = ['x%d' % it for it in range(1, draw.between(1, 5) + 1)]
    count = draw.between(1, 5)
    rows = ['r%d' % it for it in range(1, count + 1)]
    text = declared(draw, names) + 'equations obj, %s;\n' % ', '.join(rows)
    text += 'obj.. z =e= %s%s;\n' % (terms(draw, names, is_huge), draw.weighted((6, ''), (1, ' + 5'), (1, ' - 1/7')))
    feasible = {name: draw.between(0, 4) for name in names}
    for row in rows:
        sense = draw.weighted((5, 'l'), (4, 'g'), (2, 'e'), (0.7, 'n'))
        right = '0' if is_degenerate and draw.chance(0.7) else str(draw.between(-3, 20))
        if draw.chance(is_huge):
            right = draw.pick(['', '-']) + draw.pick(HUGE)
        if sense == 'e' and draw.chance(0.7):
            right = ' + '.join(str(it) for it in feasible.values())
            text += '%s.. %s =e= %s;\n' % (row, ' + '.join(names), right)
        else:
            text += '%s.. %s =%s= %s;\n' % (row, terms(draw, names, is_huge), sense, right)
    if draw.chance(0.1):
        text += 'equation zero; zero.. %s =%s= %d;\n' % (draw.pick(['0*z', '1', 'z - z']), draw.pick('lgen'), draw.between(-1, 2))
    order = draw.weighted((5, 'all'), (2, ', '.join(draw.shuffled(rows + ['obj']))), (1, ', '.join(draw.some(rows, 1, count))))
    text += 'model m /%s/;' % order
    text += bounds(draw, names + ['z'] if draw.chance(0.3) else names, is_huge) + settings(draw) + solve(draw, 'm', 'z')
    return text + again(draw, names, rows)


def again(draw: Draw, names: list[str], rows: list[str]) -> str:
    """What follows a first solve: displays, changed bounds, and further solves."""
    text = ''
    if draw.chance(0.4):
        text += '\ndisplay z.l, %s.%s, %s.m, m.modelstat, m.solvestat;' % (draw.pick(names), draw.pick(['l', 'm', 'lo', 'up']), draw.pick(rows))
    while draw.chance(0.35):
        text += '\n' + draw.pick(['', '%s.fx = %s.l;' % ((draw.pick(names),) * 2), '%s.up = z.l/2;' % draw.pick(names), 'z.l = 1/3;', '%s.m = 7/2;' % draw.pick(names)])
        text += bounds(draw, names) + settings(draw) + solve(draw, 'm', 'z')
        text += '\ndisplay z.m, %s.m, %s.m, %s.l;' % (draw.pick(names), draw.pick(rows), draw.pick(rows))
    if draw.chance(0.1):
        text += '\nabort$(m.modelstat <> 1) "no plan", m.modelstat;'
    return text


# Solves that end without an optimum: interrupted in phase 2, unbounded, interrupted in phase 1,
# infeasible by rows and by bounds, refused.
STOPPED = ['option iterlim = 0; solve p using lp maximizing z;', 'solve f using lp maximizing z;', 'option iterlim = 0; solve m using lp maximizing z;',
           'x.lo = 10; solve m using lp maximizing z;', 'x.lo = 3; x.up = 2; solve m using lp maximizing z;', 'x.lo = 1.6e38; solve m using lp maximizing z;']


def stopped(draw: Draw) -> str:
    """A solve with an optimum, one without, and a display of the marginals."""
    text = 'positive variables x, y; variable z;\nequations obj, r1, r2, r3;\nobj.. z =e= %s*x + %s*y;\n' % (coefficient(draw), coefficient(draw))
    text += 'r1.. x + %d*y =l= %d;\nr2.. %d*x + y =l= %d;\nr3.. x + y =g= 1;\n' % (
        draw.between(1, 3), draw.between(4, 9), draw.between(2, 4), draw.between(4, 9))
    text += 'models m /all/, p /obj, r1, r2/, f /obj, r3/;\n'
    if draw.chance(0.3):
        text += 'option lp = %s;\n' % draw.pick(['dantzig', 'steepest', 'any'])
    text += 'solve m using lp maximizing z;\n'
    if draw.chance(0.5):
        text += '%s.m = %s; z.m = 1/3;\n' % (draw.pick('xy'), coefficient(draw))
    shown = 'display x.m, y.m, z.m, obj.m, r1.m, r3.m, z.l, m.modelstat;'
    return text + draw.pick(STOPPED) + '\n' + shown + draw.weighted((3, ''), (1, '\nx.lo = 0; x.up = inf; option iterlim = 9;\nsolve m using lp maximizing z;\n' + shown))


def stalling(draw: Draw) -> str:
    """The textbook's example that cycles under the largest coefficient, with other numbers of
    columns and rows beside it.
    """
    extra = ['y%d' % it for it in range(draw.between(0, 2))]
    factor = [draw.pick(['', '2*', '3*']) if draw.chance(0.3) else '' for _ in range(4)]
    x = ['%sx%d' % (it, place) for place, it in enumerate(factor, 1)]
    text = 'positive variables x1, x2, x3, x4%s; variable z;\n' % ''.join(', ' + it for it in extra)
    text += 'equations obj, r1, r2, r3, r4;\nobj.. z =e= 10*%s - 57*%s - 9*%s - 24*%s%s;\n' % (*x, ''.join(' - ' + it for it in extra))
    text += 'r1.. 0.5*%s - 5.5*%s - 2.5*%s + 9*%s =l= 0;\nr2.. 0.5*%s - 1.5*%s - 0.5*%s + %s =l= 0;\n' % (*x, *x)
    text += 'r3.. x1%s =l= %d;\n' % (''.join(' + ' + it for it in extra), draw.between(1, 5))
    text += 'r4.. %s =%s= %s;\n' % (draw.pick(['z', 'x1 + x2', 'x3 - x4', 'x1']), draw.pick('lgn'), draw.pick(['0', '1', '-1', '1/2']))
    text += 'model m /%s/;\n' % draw.pick(['all', 'obj, r1, r2, r3', 'r1, r2, r3, obj'])
    if draw.chance(0.75):
        text += 'option lp = dantzig;\n'
    return text + settings(draw) + 'solve m using lp %s z; display z.l, x1.l;' % draw.pick(['maximizing', 'maximizing', 'minimizing'])


def turning(draw: Draw, extra: int) -> str:
    """The example that cycles, with n columns beside it, which defer the turn to Bland."""
    columns = ['y%d' % it for it in range(extra)]
    text = 'positive variables %s; variable z;\n' % ', '.join(['x1', 'x2', 'x3', 'x4'] + columns)
    text += 'equations obj, r1, r2, r3;\nobj.. z =e= 10*x1 - 57*x2 - 9*x3 - 24*x4;\n'
    text += 'r1.. 0.5*x1 - 5.5*x2 - 2.5*x3 + 9*x4 =l= 0;\nr2.. 0.5*x1 - 1.5*x2 - 0.5*x3 + x4 =l= 0;\n'
    text += 'r3.. %s =l= %d;\n' % (' + '.join(['x1'] + columns), draw.between(1, 5))
    return text + 'model m /all/; option lp = dantzig;\nsolve m using lp maximizing z; display z.l, x1.l;'


def gain_after_turning(draw: Draw) -> str:
    """The example that cycles, and beside it two columns that gain little and exclude each other:
    after the turn to Bland the lesser one enters first, so a turn that is lost takes fewer pivots.
    """
    first, most = draw.between(1, 3), draw.between(1, 5)
    text = 'positive variables x1, x2, x3, x4, y1, y2; variable z;\nequations obj, r1, r2, r3, r4;\n'
    text += 'obj.. z =e= 10*x1 - 57*x2 - 9*x3 - 24*x4 + %d*y1/100 + %d*y2/100;\n' % (first, first + draw.between(1, 4))
    text += 'r1.. 0.5*x1 - 5.5*x2 - 2.5*x3 + 9*x4 =l= 0;\nr2.. 0.5*x1 - 1.5*x2 - 0.5*x3 + x4 =l= 0;\n'
    text += 'r3.. x1 =l= %d;\nr4.. y1 + y2 =l= %d;\n' % (draw.between(1, 5), most)
    return text + 'model m /all/; option lp = dantzig;\nsolve m using lp maximizing z; display z.l, y1.l, y2.l;'


def crowded(draw: Draw, count: int, bounded: int) -> str:
    """More columns than steepest edge weighs; those with an upper bound make rows. The weight is
    greatest where the cost is near a number that is drawn.
    """
    text = 'set j /1*%d/, r /1*2/; parameter c(j), a(r,j);\n' % count
    text += 'c(j) = mod(%d*ord(j), 97)/8 + 1; a(r,j) = c(j)*c(j)/(%d + ord(r));\n' % (draw.between(2, 96), draw.between(0, 8))
    text += 'positive variable x(j); variable z; equations obj, most(r);\nobj.. z =e= sum(j, c(j)*x(j));\n'
    text += 'most(r).. sum(j, a(r,j)*x(j)) =l= %d;\nmodel m /all/;\n' % draw.between(50, 500)
    text += 'x.up(j)$(ord(j) <= %d) = 1 + mod(ord(j), %d);\n' % (bounded, draw.between(2, 5))
    text += 'option lp = %s, limrow = 0, limcol = 0, iterlim = %d;\n' % (draw.pick(['steepest', 'any']), draw.between(2, 20))
    return text + 'solve m using lp maximizing z;'


def alike(draw: Draw) -> str:
    """Columns whose costs differ in bits that steepest edge does not weigh."""
    text = 'set j /1*8/; parameter c(j); positive variable x(j); variable z; equation obj;\n'
    text += 'c(j) = %d/%d + mod(%d*ord(j), 11)/(2**%d + %d*ord(j));\n' % (
        draw.between(1, 99), draw.between(1, 9), draw.between(1, 10), draw.between(33, 50), draw.between(1, 999))
    text += 'obj.. z =e= sum(j, c(j)*x(j)); model m /all/; x.up(j) = 1;\noption lp = %s, iterlim = 2;\n' % draw.pick(['steepest', 'any'])
    return text + 'solve m using lp maximizing z;'


def decimal(draw: Draw, most: int, places: int) -> str:
    """A number above 0 with n decimals."""
    number = draw.between(1, most * 10 ** places)
    return '%d.%0*d' % (number // 10 ** places, places, number % 10 ** places) if places else str(number)


def diet(draw: Draw) -> str:
    """The cheapest way to cover needs of very different sizes. Most solvers meet a number that does
    not fit, and `any` reaches its later rules.
    """
    foods, needs, places = draw.between(9, 14), draw.between(8, 11), draw.between(1, 4)
    sizes = [10 ** draw.between(0, 3) for _ in range(needs)]
    costs = ', '.join('f%d %s' % (food, decimal(draw, 20, draw.between(0, 2))) for food in range(1, foods + 1))
    parts = ['n%d.f%d %s' % (need, food, decimal(draw, 9 * size, places))
             for need, size in enumerate(sizes, 1) for food in range(1, foods + 1) if draw.chance(0.85)]
    needed = ', '.join('n%d %s' % (need, decimal(draw, 20 * size, places)) for need, size in enumerate(sizes, 1))
    text = 'set f /f1*f%d/, n /n1*n%d/;\nparameter c(f) /%s/,\nb(n) /%s/,\na(n,f) /' % (foods, needs, costs, needed)
    text += ',\n'.join(', '.join(parts[it:it + 8]) for it in range(0, len(parts), 8)) + '/;\n'
    text += 'positive variable x(f); variable z; equations cost, need(n);\ncost.. z =e= sum(f, c(f)*x(f));\n'
    text += 'need(n).. sum(f, a(n,f)*x(f)) =g= b(n);\nmodel m /all/;\noption lp = %s, limrow = 0, limcol = 0;\n' % draw.pick(['any', 'any', 'steepest'])
    return text + 'solve m using lp minimizing z;'


def first_phase_stall(draw: Draw) -> str:
    """A program whose first phase is degenerate: many rows through one point, some of which that
    point breaks at first.
    """
    count = draw.between(2, 4)
    names = ['x%d' % it for it in range(1, count + 1)]
    rows = ['r%d' % it for it in range(draw.between(2, 6))]
    text = 'positive variables %s; variable z;\nequations obj, need, %s;\n' % (', '.join(names), ', '.join(rows))
    text += 'obj.. z =e= %s;\nneed.. %s =g= 1;\n' % (terms(draw, names), terms(draw, names))
    for row in rows:
        text += '%s.. %s =%s= 0;\n' % (row, terms(draw, names), draw.pick('lge'))
    text += 'model m /all/;\n' + settings(draw)
    return text + 'option lp = %s;' % draw.pick(['dantzig', 'bland', 'steepest', 'any']) + solve(draw, 'm', 'z') + again(draw, names, rows)


def transport(draw: Draw) -> str:
    """Plants and markets; now and then the plants have too little, or a route is closed."""
    plants, markets = draw.between(1, 3), draw.between(1, 3)
    text = 'set p /p1*p%d/, m /m1*m%d/;\nparameter a(p), b(m), c(p,m);\n' % (plants, markets)
    text += 'a(p) = %d + 3*ord(p); b(m) = %d - ord(m); c(p,m) = mod(7*ord(p) + %d*ord(m), 5) + 1;\n' % (
        draw.between(2, 9), draw.between(3, 9), draw.between(1, 9))
    text += 'positive variable x(p,m); variable z; equations cost, supply(p), demand(m);\n'
    route = draw.pick(['', '$(c(p,m) < 5)', '$(ord(p) <= ord(m))'])
    text += 'cost.. z =e= sum((p,m)%s, c(p,m)*x(p,m));\nsupply(p).. sum(m, x(p,m)) =l= a(p);\n' % route
    text += 'demand(m)$(b(m) > 0).. sum(p, x(p,m)) =%s= b(m);\nmodel t /all/;' % draw.pick(['g', 'g', 'e'])
    if draw.chance(0.3):
        text += '\nx.up(p,m)$(ord(p) = %d) = %d;' % (draw.between(1, 3), draw.between(0, 5))
    text += settings(draw) + '\nsolve t using lp minimizing z;\ndisplay x.l, x.m, supply.m, demand.l;'
    if draw.chance(0.4):
        body = 'b("m1") = b("m1") + %d; solve t minimizing z using lp; r(k) = z.l; s(k) = t.modelstat' % draw.between(1, 6)
        text += '\nset k /1*%d/; parameter r(k), s(k);\nloop(k, %s;);\ndisplay r, s;' % (draw.between(1, 3), body)
        draw.note('solve in a loop')
    return text


def plan(draw: Draw) -> str:
    """Periods with stock, lags and leads, over a set that statements assign."""
    last = draw.between(2, 4)
    need = ', '.join('%d %d' % (it, draw.between(0, 9)) for it in range(1, last + 1))
    text = 'set t /1*%d/, open(t); alias(t,u);\nparameter need(t) /%s/; scalar cap /%d/;\n' % (last, need, draw.between(3, 9))
    text += 'positive variables make(t), stock(t); variable z;\nequations balance(t), limit(t), cost, last(t);\n'
    text += 'balance(t).. stock(t) =e= stock(t%s1) + make(t)$open(t) - need(t);\n' % draw.pick(['-', '-', '--'])
    text += 'limit(open).. make(open) =l= cap*%s;\n' % draw.pick(['1', 'ord(open)', 'card(t)']).replace('ord(open)', '2')
    text += 'cost.. z =e= sum(t, %s*make(t) + %s*stock(t)) + sum(u$(ord(u) > 1), make(u-1)/4);\n' % (coefficient(draw), coefficient(draw))
    text += 'last(t)$(ord(t) = card(t)).. stock(t) =n= 1;\nmodel plan /all/;\nopen(t) = yes$(mod(ord(t),%d) = 0 or ord(t) = 1);\n' % (
        draw.between(1, 3))
    text += 'stock.up(t) = %d; stock.fx("%d") = %d;' % (draw.between(3, 12), last, draw.between(0, 2))
    text += settings(draw) + '\nsolve plan using lp minimizing z;\ndisplay make.l, stock.l, balance.m, limit.l, last.l, last.m;'
    if draw.chance(0.4):
        text += '\nopen(t) = not open(t);' + settings(draw) + '\nsolve plan using lp %s z;' % draw.pick(['minimizing', 'maximizing'])
    return text


REFUSED = [
    ('x.lo = 2**125;', '4*x =l= 1', 'x =g= 0'), ('x.lo = 1.5e38;', 'x =l= -1.5e38', 'y =g= 0'), ('x.lo = -1.5e38; x.up = 1.5e38;', 'x =l= 1', 'y =g= 0'),
    ('x.up = -1.5e38;', '2*x =g= 0', 'y =l= 1'), ('', 'x/2 =l= 1e38', 'y =l= 1'), ('', 'x/3 + 1e38*y =l= 1', 'y =l= 4'), ('', 'x =l= 1e38', 'y - x =l= 1e38'),
    ('x.lo = 1e38;', 'y - x/2 =l= -5e37', 'x/2 =l= 8e37'), ('x.lo = 1;', '1e30*y + 1e30*x =n= 0', 'x =l= 1e10'), ('x.lo = 1; y.lo = 1;', '1e38*x + 1e38*y =n= 0', 'x =l= 2'),
    ('', 'x =l= 1.6e38', 'y =l= 1.6e38'), ('y.lo = 1.6e38;', 'x =l= 1.6e38', 'y =l= 1.7e38'), ('x.lo = 1e38;', 'x - y =l= 1.7e38', 'y =l= 9e37'),
    ('x.up = -1e38;', 'x + y =g= -1.7e38', 'y =l= 1'), ('', 'x/(2**61 - 1) + y =l= 2**61', 'x + y/(2**89 - 1) =l= 7'),
    ('', '(2**61 - 1)*x + 3*y =l= 5', '(2**89 - 1)*y + 7*x =l= 11'), ('x.up = 1/3**70; y.up = 1/2**100;', 'x + y =l= 1', 'x - y =g= 0')]


WHOLE = [
    'positive variables x, y; variable z; equations obj, r1, r2; obj.. z =e= x/4; r1.. x/2 =l= 9e37; r2.. y =l= 1; x.lo = 1e38;',
    'positive variables x, y; variable z; equations obj, r1, r2; obj.. z =e= x; r1.. 1e30*x =n= 0; r2.. x =l= 1e10;',
    'positive variables x, y; variable z; equations obj, r1, r2, r3; obj.. z =e= x + y; r1.. 1e38*x + 1e38*y =n= 0; r2.. x =l= 1; r3.. y =l= 1;',
    'positive variables x, y; variable z; equations obj, r1, r2; obj.. z =e= x + y; r1.. 3*x =l= 0; r2.. y =l= 5; x.up = 1e38;',
    'positive variables x, y; variable z; equations obj, r1, r2; r1.. 1e19*x + y =l= 1e-20; r2.. x =g= 1; obj.. z =e= x; y.lo = 1e-20;',
    'positive variables x, y; variable z; equations r1, r2, obj; r1.. x =l= -1.5e38; r2.. y =l= 3; obj.. z =e= x; x.lo = 1.5e38;',
    'positive variables x, y; variable z; equations r0, obj, r1, r2; r0.. 2*x + y =n= 3; r1.. 1e19*x + y =l= 1e-20; r2.. x =g= 1; obj.. z =e= x; y.lo = 1e-20;',
    'variables x, y, z; equations obj, r1, r2; obj.. z =e= x; r1.. x/2 + 0*y =l= 9e37; r2.. y =e= x/3; x.up = -1e38;',
    'positive variables x, y; variable z; equations obj, r1, r2; obj.. z =e= x; r1.. x/2 + 1e38*y =l= 1; r2.. y =l= 3;',
    'positive variables x, y; variable z; equations obj, r1, r2; obj.. z =e= x; r1.. x/2 =l= 1e38; r2.. y =l= 1;',
    'positive variables x, y; variable z; equations r1, obj; r1.. x + y =l= 4; obj.. z =e= x - y; option iterlim = 1;',
    'negative variable x; variable z; equations obj, r1; obj.. z =e= x/8; r1.. x/2 =g= -9e37; x.up = -1e38;',
    'positive variable x; variables y, z; equations obj, r1, r2; obj.. z =e= x/(2**61 - 1); r1.. x/7 =l= 2**64; r2.. (2**89 - 1)*x - y =e= 3;']


def whole(draw: Draw, which: int) -> str:
    """One of the sources that meet a rare step, solved in both directions by either solver."""
    text = WHOLE[which % len(WHOLE)] + '\nmodel m /all/;' + draw.pick(['', '\noption lp = dantzig;', '\noption limrow = 0, limcol = 0;'])
    ways = draw.shuffled(['maximizing', 'minimizing'])
    return text + ''.join('\nsolve m using lp %s z;' % way for way in ways) + '\ndisplay z.l, x.l, m.modelstat;'


def refused(draw: Draw, which: int) -> str:
    """A small program one step of which may not fit, with other rows around it."""
    start, first, second = REFUSED[which % len(REFUSED)]
    costs = ['%s%s' % (draw.pick(['', '2*', '1/3*', '1e19*', '-']), name) for name in ('x', 'y')]
    text = draw.pick(['positive variables x, y;', 'variables x, y;', 'positive variables y, x, w;'])
    text += ' variable z;\nequations obj, r1, r2, r3;\nobj.. z =e= %s + %s%s;\n' % (*costs, draw.pick(['', ' - 1.6e38', ' + 8e37', ' - 1/3']))
    text += 'r1.. %s;\nr2.. %s;\nr3.. x %s y =%s= %s;\n' % (first, second, draw.pick('+-'), draw.pick('lgen'), draw.pick(['0', '1', '5', '-1', '1.6e38']))
    text += 'model m /%s/;\n' % draw.pick(['all', 'r1, r2, obj', 'obj, r2, r1', 'r3, r2, r1, obj', 'obj, r1'])
    return text + start + settings(draw) + solve(draw, 'm', 'z') + again(draw, ['x', 'y'], ['r1', 'r2', 'r3', 'obj'])


def any_model(draw: Draw) -> str:
    """A source of one of these shapes."""
    return draw.call((9, lambda: small(draw)), (3, lambda: small(draw, is_degenerate=True)), (4, lambda: small(draw, 0.12)),
                     (1, lambda: small(draw, 0.4)), (3, lambda: refused(draw, draw.between(0, 99))), (2, lambda: stalling(draw)), (2, lambda: first_phase_stall(draw)), (1, lambda: gain_after_turning(draw)),
                     (3, lambda: transport(draw)), (3, lambda: plan(draw)), (3, lambda: stopped(draw)))
