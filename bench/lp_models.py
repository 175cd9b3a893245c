"""Linear models that are solved for their time: each as a source of the program, and as the other
solvers read it (CPLEX LP format).

All numbers are drawn by one generator from the size of the model, so a model of a name is the same
everywhere.
"""
from decimal import Decimal


def draws(seed):
    """The generator's numbers, each below the one that is sent."""
    state = seed
    below = yield
    while True:
        state = (1103515245 * state + 12345) % 2**31
        below = yield state // 65536 % below


def drawn(seed):
    """A function that draws a number below another."""
    numbers = draws(seed)
    next(numbers)
    return numbers.send


def lp_text(objective, rows, bounds):
    """A program that is minimized as the other solvers read it (CPLEX LP format): rows of a name,
    terms, sense and right side.
    """
    line = "{}: {} {} {}"
    terms = lambda pairs: " ".join(f"{'-' if c < 0 else '+'} {abs(c)} {x}" for c, x in pairs)
    lines = ["minimize", f" cost: {terms(objective)}", "subject to"]
    lines += [" " + line.format(name, terms(pairs), sense, right) for name, pairs, sense, right in rows]
    return "\n".join(lines + ["bounds", *bounds, "end", ""])


def listed(parameter, pairs):
    """The lines that declare a parameter with its entries."""
    return [f"parameter {parameter} /", *(f"{label} {number}" for label, number in pairs), "/;"]


def transport(plants):
    """The generator's model with as many markets as plants: its source, and the same for the other
    solvers.
    """
    draw = drawn(plants)
    demands = [10 + draw(90) for _ in range(plants)]
    supplies = [sum(demands) // plants + 1 + draw(10) for _ in range(plants)]
    costs = [[1 + draw(50) for _ in range(plants)] for _ in range(plants)]
    each = [(p, m) for p in range(plants) for m in range(plants)]
    lines = [f"set p /p1*p{plants}/;", f"set m /m1*m{plants}/;", "parameter b(m) /"]
    lines += [f"m{m + 1} {demands[m]}" for m in range(plants)]
    lines += ["/;", "parameter a(p) /"] + [f"p{p + 1} {supplies[p]}" for p in range(plants)]
    lines += ["/;", "parameter c(p,m) /"] + [f"p{p + 1}.m{m + 1} {costs[p][m]}" for p, m in each]
    lines += [
        "/;",
        "positive variable x(p,m); variable z;",
        "equations cost, supply(p), demand(m);",
        "cost.. z =e= sum((p,m), c(p,m)*x(p,m));",
        "supply(p).. sum(m, x(p,m)) =l= a(p);",
        "demand(m).. sum(p, x(p,m)) =g= b(m);",
        "model t /all/;",
        "option iterlim = 100000, limrow = 0, limcol = 0;",
        "solve t using lp minimizing z;",
    ]
    rows = [(f"supply{p}", [(1, f"x{p}_{m}") for m in range(plants)], "<=", supplies[p]) for p in range(plants)]
    rows += [(f"demand{m}", [(1, f"x{p}_{m}") for p in range(plants)], ">=", demands[m]) for m in range(plants)]
    return "\n".join(lines) + "\n", lp_text([(costs[p][m], f"x{p}_{m}") for p, m in each], rows, [])


def plan(periods, products, places):
    """A plan of n products that share hours in each period, and are stored, with n decimals in
    hours and prices: its source, and the same for the other solvers.
    """
    draw = drawn(periods)
    unit = 10**places
    demands = [[20 + draw(60) for _ in range(periods)] for _ in range(products)]
    hours = [Decimal(unit + draw(4 * unit)) / unit for _ in range(products)]
    prices = [Decimal(5 * unit + draw(20 * unit)) / unit for _ in range(products)]
    needed = [sum(hours[p] * demands[p][t] for p in range(products)) for t in range(periods)]
    most = sum(needed) // periods + 10
    each = [(p, t) for p in range(products) for t in range(periods)]
    lines = [f"set t /t1*t{periods}/;", f"set p /p1*p{products}/;", "parameter d(p,t) /"]
    lines += [f"p{p + 1}.t{t + 1} {demands[p][t]}" for p, t in each]
    lines += ["/;", "parameter h(p) /"] + [f"p{p + 1} {hours[p]}" for p in range(products)]
    lines += ["/;", "parameter c(p) /"] + [f"p{p + 1} {prices[p]}" for p in range(products)]
    lines += [
        "/;",
        "positive variables make(p,t), store(p,t), over(t); variable z;",
        "equations cost, carry(p,t), work(t);",
        "cost.. z =e= sum((p,t), c(p)*make(p,t) + 1/2*store(p,t)) + sum(t, 30*over(t));",
        "carry(p,t).. store(p,t-1) + make(p,t) - store(p,t) =e= d(p,t);",
        f"work(t).. sum(p, h(p)*make(p,t)) - over(t) =l= {most};",
        "model m /all/;",
        "option iterlim = 100000, limrow = 0, limcol = 0;",
        "solve m using lp minimizing z;",
    ]
    objective = [(prices[p], f"m{p}_{t}") for p, t in each] + [(0.5, f"s{p}_{t}") for p, t in each]
    objective += [(30, f"o{t}") for t in range(periods)]
    rows = []
    for p, t in each:
        before = [(1, f"s{p}_{t - 1}")] if t else []
        rows.append((f"carry{p}_{t}", before + [(1, f"m{p}_{t}"), (-1, f"s{p}_{t}")], "=", demands[p][t]))
    for t in range(periods):
        rows.append((f"work{t}", [(hours[p], f"m{p}_{t}") for p in range(products)] + [(-1, f"o{t}")], "<=", most))
    return "\n".join(lines) + "\n", lp_text(objective, rows, [])


def blend(raws, products, qualities, places):
    """Products that are blended from raws, each quality of each above a limit, with n decimals in
    prices and qualities: its source, and the same for the other solvers. To share out each raw by
    the products' demands keeps to all limits.
    """
    draw = drawn(raws)
    unit = 10**places
    dues = [50 + draw(100) for _ in range(products)]
    stocks = [sum(dues) // raws + 1 + draw(30) for _ in range(raws)]
    prices = [Decimal(10 * unit + draw(40 * unit)) / unit for _ in range(raws)]
    parts = [[Decimal(85 * unit + draw(15 * unit)) / unit for _ in range(qualities)] for _ in range(raws)]
    means = [sum(stocks[r] * parts[r][q] for r in range(raws)) // sum(stocks) for q in range(qualities)]
    limits = [(p, q, means[q] - Decimal(draw(3 * unit)) / unit) for p in range(products) for q in range(qualities)]
    lines = [f"set r /r1*r{raws}/; set p /p1*p{products}/; set q /q1*q{qualities}/;"]
    lines += listed("stock(r)", [(f"r{r + 1}", stocks[r]) for r in range(raws)])
    lines += listed("price(r)", [(f"r{r + 1}", prices[r]) for r in range(raws)])
    lines += listed("due(p)", [(f"p{p + 1}", dues[p]) for p in range(products)])
    lines += listed("part(r,q)", [(f"r{r + 1}.q{q + 1}", parts[r][q]) for r in range(raws) for q in range(qualities)])
    lines += listed("low(p,q)", [(f"p{p + 1}.q{q + 1}", low) for p, q, low in limits])
    lines += [
        "positive variable x(r,p); variable z;",
        "equations cost, supply(r), demand(p), least(p,q);",
        "cost.. z =e= sum((r,p), price(r)*x(r,p));",
        "supply(r).. sum(p, x(r,p)) =l= stock(r);",
        "demand(p).. sum(r, x(r,p)) =g= due(p);",
        "least(p,q).. sum(r, (part(r,q) - low(p,q))*x(r,p)) =g= 0;",
        "model b /all/;",
        "option iterlim = 100000, limrow = 0, limcol = 0;",
        "solve b using lp minimizing z;",
    ]
    uses = lambda p, number: [(number(r), f"x{r}_{p}") for r in range(raws) if number(r)]
    rows = [(f"supply{r}", [(1, f"x{r}_{p}") for p in range(products)], "<=", stocks[r]) for r in range(raws)]
    rows += [(f"demand{p}", uses(p, lambda r: 1), ">=", dues[p]) for p in range(products)]
    rows += [(f"least{p}_{q}", uses(p, lambda r: parts[r][q] - low), ">=", 0) for p, q, low in limits]
    objective = [pair for p in range(products) for pair in uses(p, lambda r: prices[r])]
    return "\n".join(lines) + "\n", lp_text(objective, rows, [])


def staircase(blocks):
    """n blocks, each with eight activities that use six resources and make six goods, which are
    stored from block to block: its source, and the same for the other solvers. The activities of a
    plan that was drawn keep to all limits.
    """
    draw = drawn(blocks)
    acts, kinds, each = range(8), range(6), range(blocks)
    uses = [[max(draw(6) - 2, 0) for _ in acts] for _ in kinds]
    makes = [[max(draw(4) - 1, 0) for _ in acts] for _ in kinds]
    costs = [3 + draw(20) for _ in acts]
    levels = [[draw(12) for _ in acts] for _ in each]
    total = lambda numbers, t: sum(number * level for number, level in zip(numbers, levels[t]))
    most = [[total(uses[k], t) + draw(15) for t in each] for k in kinds]
    dues = [[max(total(makes[k], t) - draw(9), 0) for t in each] for k in kinds]
    lines = [f"set t /t1*t{blocks}/; set a /a1*a8/; set r /r1*r6/; set g /g1*g6/;"]
    lines += listed("u(r,a)", [(f"r{k + 1}.a{a + 1}", uses[k][a]) for k in kinds for a in acts])
    lines += listed("y(g,a)", [(f"g{k + 1}.a{a + 1}", makes[k][a]) for k in kinds for a in acts])
    lines += listed("c(a)", [(f"a{a + 1}", costs[a]) for a in acts])
    lines += listed("most(r,t)", [(f"r{k + 1}.t{t + 1}", most[k][t]) for k in kinds for t in each])
    lines += listed("due(g,t)", [(f"g{k + 1}.t{t + 1}", dues[k][t]) for k in kinds for t in each])
    lines += [
        "positive variables x(a,t), s(g,t); variable z;",
        "equations cost, use(r,t), carry(g,t);",
        "cost.. z =e= sum((a,t), c(a)*x(a,t)) + sum((g,t), s(g,t));",
        "use(r,t).. sum(a, u(r,a)*x(a,t)) =l= most(r,t);",
        "carry(g,t).. s(g,t-1) + sum(a, y(g,a)*x(a,t)) - s(g,t) =g= due(g,t);",
        "model m /all/;",
        "option iterlim = 100000, limrow = 0, limcol = 0;",
        "solve m using lp minimizing z;",
    ]
    terms = lambda numbers, t: [(numbers[a], f"x{a}_{t}") for a in acts if numbers[a]]
    rows = [(f"use{k}_{t}", terms(uses[k], t), "<=", most[k][t]) for k in kinds for t in each]
    for k in kinds:
        for t in each:
            before = [(1, f"s{k}_{t - 1}")] if t else []
            rows.append((f"carry{k}_{t}", before + terms(makes[k], t) + [(-1, f"s{k}_{t}")], ">=", dues[k][t]))
    objective = [pair for t in each for pair in terms(costs, t)] + [(1, f"s{k}_{t}") for k in kinds for t in each]
    return "\n".join(lines) + "\n", lp_text(objective, rows, [])


def assignment(size):
    """n persons for as many tasks, each pair at a cost: its source, and the same for the other
    solvers.
    """
    draw = drawn(size)
    each = range(size)
    costs = [[1 + draw(99) for _ in each] for _ in each]
    lines = [f"set i /i1*i{size}/; set j /j1*j{size}/;"]
    lines += listed("c(i,j)", [(f"i{i + 1}.j{j + 1}", costs[i][j]) for i in each for j in each])
    lines += [
        "positive variable x(i,j); variable z;",
        "equations cost, person(i), task(j);",
        "cost.. z =e= sum((i,j), c(i,j)*x(i,j));",
        "person(i).. sum(j, x(i,j)) =e= 1;",
        "task(j).. sum(i, x(i,j)) =e= 1;",
        "model m /all/;",
        "option iterlim = 100000, limrow = 0, limcol = 0;",
        "solve m using lp minimizing z;",
    ]
    rows = [(f"person{i}", [(1, f"x{i}_{j}") for j in each], "=", 1) for i in each]
    rows += [(f"task{j}", [(1, f"x{i}_{j}") for i in each], "=", 1) for j in each]
    return "\n".join(lines) + "\n", lp_text([(costs[i][j], f"x{i}_{j}") for i in each for j in each], rows, [])


def network(nodes):
    """A flow at least cost through n nodes, each with an arc to the next one and three to others:
    its source, and the same for the other solvers.
    """
    draw = drawn(nodes)
    ends = [sorted({(n + 1) % nodes, *((n + 2 + draw(nodes - 2)) % nodes for _ in range(3))}) for n in range(nodes)]
    arcs = [(n, m) for n in range(nodes) for m in ends[n]]
    costs = {arc: 1 + draw(50) for arc in arcs}
    gives = [draw(21) - 10 for _ in range(nodes - 1)]
    gives.append(-sum(gives))
    lines = [f"set n /n1*n{nodes}/; alias(n,m);"]
    lines += listed("c(n,n)", [(f"n{n + 1}.n{m + 1}", costs[n, m]) for n, m in arcs])
    lines += listed("gives(n)", [(f"n{n + 1}", gives[n]) for n in range(nodes)])
    lines += [
        "positive variable x(n,n); variable z;",
        "equations cost, flow(n);",
        "cost.. z =e= sum((n,m)$c(n,m), c(n,m)*x(n,m));",
        "flow(n).. sum(m$c(n,m), x(n,m)) - sum(m$c(m,n), x(m,n)) =e= gives(n);",
        "model w /all/;",
        "option iterlim = 100000, limrow = 0, limcol = 0;",
        "solve w using lp minimizing z;",
    ]
    rows = []
    for node in range(nodes):
        leaving = [(1, f"x{n}_{m}") for n, m in arcs if n == node]
        rows.append((f"flow{node}", leaving + [(-1, f"x{n}_{m}") for n, m in arcs if m == node], "=", gives[node]))
    return "\n".join(lines) + "\n", lp_text([(costs[n, m], f"x{n}_{m}") for n, m in arcs], rows, [])
