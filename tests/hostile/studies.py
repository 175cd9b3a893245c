"""Chains of sources that are drawn: each restarts from the save of the one before it."""
SIZES = (1, 2, 3, 3, 4, 5)       # how many labels a set has
NUMBERS = ('0', '1', '1', '2', '3', '7', '1/2', '2/3', '0.125', '100')
SENSES = ('=l=', '=l=', '=g=', '=e=', '=n=')
OPTIONS = ('decimals = 0', 'decimals = 5', 'limrow = 1', 'limcol = 0', 'limcol = 2', 'iterlim = 3', 'iterlim = 50', 'solprint = off', 'solprint = on',
           'lp = dantzig', 'lp = bland')
ENDS = ('', '', '\n', '\n\n', '\n* a remark', '\n* a remark\n', '\n$ontext\nwords; words\n$offtext\n')


class Study:
    """What the sources so far have declared. A set is known by its labels, and what is declared
    over it by that set.
    """

    def __init__(self, rng):
        self.rng, self.count, self.labels = rng, 0, []
        self.sets, self.aliases, self.subsets = {}, {}, {}
        self.parameters, self.variables, self.equations = {}, {}, {}
        self.objectives, self.models = [], []

    def name(self, kind):
        self.count += 1
        return '%s%d' % (kind, self.count)

    def some(self, names):
        return self.rng.choice(sorted(names))

    def is_likely(self, chance):
        return self.rng.random() < chance

    def root(self, name):
        return self.aliases.get(name) or self.subsets.get(name) or name

    # ---- declarations

    def new_set(self):
        """A set whose labels are in their order, some of them new."""
        name = self.name('i')
        new = ['%s%d' % (self.rng.choice(('a', 'b', 'north', 'T')), len(self.labels) + k) for k in range(self.rng.choice(SIZES))]
        old = [label for label in self.labels if self.is_likely(0.3)]
        self.labels += new
        self.sets[name] = old + new
        return 'set %s /%s/;' % (name, ', '.join(old + new))

    def new_subset(self):
        name, of = self.name('s'), self.some(self.sets)
        self.subsets[name] = of
        given = [label for label in self.sets[of] if self.is_likely(0.4)]
        opened = ' %s(%s) = %s(%s);' % (name, of, name, of) if self.is_likely(0.8) else ''
        return 'set %s(%s)%s;%s' % (name, of, ' /%s/' % ', '.join(given) if given else '', opened)

    def new_alias(self):
        name, of = self.name('k'), self.some(self.sets)
        self.aliases[name] = of
        return 'alias (%s, %s);' % (of, name)

    def domain(self):
        return [self.some(self.sets) for _ in range(self.rng.choice((0, 1, 1, 1, 2)))]

    def over(self, domain):
        return '(%s)' % ', '.join(domain) if domain else ''

    def new_parameter(self):
        name, domain = self.name('p'), self.domain()
        self.parameters[name] = domain
        if len(domain) == 2 and self.is_likely(0.5):
            return self.new_table(name, domain)
        given = {'.'.join(self.rng.choice(self.sets[it]) for it in domain): self.rng.choice('12345') for _ in range(3)}
        data = ', '.join('%s %s' % it for it in given.items()) if domain else self.rng.choice('0123')
        return 'parameter %s%s%s;' % (name, self.over(domain), ' /%s/' % data if self.is_likely(0.7) else '')

    def new_table(self, name, domain):
        rows, columns = (self.sets[it] for it in domain)
        lines = [' '*12 + ''.join('%12s' % it for it in columns)]
        lines += ['%-12s' % row + ''.join('%12s' % self.rng.choice('0123456') for _ in columns) for row in rows if self.is_likely(0.8)]
        return 'table %s%s\n%s\n;' % (name, self.over(domain), '\n'.join(lines)) if len(lines) > 1 else 'parameter %s%s;' % (name, self.over(domain))

    def new_variable(self):
        name, domain = self.name('x'), self.domain()
        self.variables[name] = domain
        return '%svariable %s%s;' % (self.rng.choice(('positive ', 'positive ', 'negative ', '')), name, self.over(domain))

    # ---- expressions; `around` are the sets that are controlled

    def index(self, of, around):
        """An index at a position of this set."""
        fit = [it for it in around if self.root(it) == of]
        if not fit or self.is_likely(0.15):
            return "'%s'" % self.rng.choice(self.sets[of])
        index = self.rng.choice(fit)
        lag = self.rng.choice(('-1', '+1', '--1', '++1', '+2')) if index not in self.subsets and self.is_likely(0.15) else ''
        return index + lag

    def reference(self, name, domain, around):
        return name + (self.over([self.index(it, around) for it in domain]))

    def value(self, around, depth=2):
        """A number's expression."""
        kind = self.rng.randrange(12 if depth else 5)
        if kind < 2 or kind < 4 and not self.parameters:
            return self.rng.choice(NUMBERS)
        if kind < 4:
            name = self.some(self.parameters)
            return self.reference(name, self.parameters[name], around)
        if kind == 4:
            ordered = [it for it in around if it not in self.subsets]
            return 'ord(%s)' % self.rng.choice(ordered) if ordered else 'card(%s)' % self.some([*self.sets, *self.subsets])
        if kind == 5 and self.variables:
            name = self.some(self.variables)
            return self.reference('%s.%s' % (name, self.rng.choice(('l', 'm', 'lo', 'up', 'l'))), self.variables[name], around)
        if kind == 6 and self.models:
            return '%s.%s' % (self.rng.choice(self.models), self.rng.choice(('modelstat', 'solvestat')))
        if kind == 7:
            set_ = self.some([*self.sets, *self.aliases, *self.subsets])
            if set_ not in around:
                where = '$(%s)' % self.condition([*around, set_], 0) if self.is_likely(0.3) else ''
                return '%s(%s%s, %s)' % (self.rng.choice(('sum', 'sum', 'smax', 'smin', 'prod')), set_, where, self.value([*around, set_], depth - 1))
        one, other = self.value(around, depth - 1), self.value(around, depth - 1)
        if kind == 8:
            return '%s(%s, %s)' % (self.rng.choice(('min', 'max')), one, other)
        if kind == 9:
            return '((%s)$(%s))' % (one, self.condition(around, 0))
        sign = self.rng.choice('+-+-*/' if self.is_likely(0.1) else '+-+-')
        return '((%s) %s (%s))' % (one, sign, other)

    def condition(self, around, depth=1):
        inside = [it for it in self.subsets if self.subsets[it] in map(self.root, around)]
        if inside and self.is_likely(0.4):
            name = self.rng.choice(inside)
            return self.reference(name, [self.subsets[name]], around)
        said = '%s %s %s' % (self.value(around, 1), self.rng.choice(('>', '<', '>=', '<=', '=', '<>')), self.value(around, 0))
        return '(%s) %s (%s)' % (said, self.rng.choice(('and', 'or')), self.condition(around, 0)) if depth and self.is_likely(0.2) else 'not (%s)' % said if self.is_likely(0.2) else said

    def linear(self, around):
        """An expression that is linear in the variables."""
        terms = []
        for _ in range(self.rng.randrange(1, 4)):
            name = self.some(self.variables)
            free = [it for it in self.variables[name] if it not in map(self.root, around)]
            inner = free if len(set(free)) == len(free) and self.is_likely(0.8) else []
            term = '%s*%s' % (self.value([*around, *inner], 0), self.reference(name, self.variables[name], [*around, *inner]))
            terms.append('sum((%s), %s)' % (', '.join(inner), term) if inner else term)
        return ' + '.join(terms)

    # ---- statements

    def new_model(self):
        """Equations, the model of them, and a first solve."""
        lines = [self.new_variable()] if not self.variables else []
        goal, model = self.name('z'), self.name('m')
        lines.append('variable %s;' % goal)
        named = [self.name('e') for _ in range(self.rng.randrange(2, 4))]
        for k, name in enumerate(named):
            domain = sorted({self.some(self.sets)}) if k and self.is_likely(0.7) else []
            left = '%s' % goal if not k else self.linear(domain)
            right = self.linear([]) if not k else self.value(domain, 1)
            where = '$(%s)' % self.condition(domain, 0) if domain and self.is_likely(0.3) else ''
            lines.append('equation %s%s; %s%s%s.. %s %s %s;' % (name, self.over(domain), name, self.over(domain), where, left, self.rng.choice(SENSES) if k else '=e=', right))
            self.equations[name] = domain
        self.objectives.append(goal)
        self.models.append(model)
        lines.append('model %s /%s/;' % (model, 'all' if self.is_likely(0.3) else ', '.join(named)))
        return ' '.join([*lines, 'solve %s using lp %s %s;' % (model, self.rng.choice(('maximizing', 'minimizing')), goal)])

    def solve(self):
        place = self.rng.randrange(len(self.models))
        return 'solve %s using lp %s %s;' % (self.models[place], self.rng.choice(('maximizing', 'minimizing')), self.objectives[place])

    def assignment(self, around=()):
        kind = self.rng.randrange(6)
        if kind < 3 and self.parameters:
            name = self.some(self.parameters)
            domain, head, right = self.parameters[name], name, self.value
        elif kind < 5 and self.variables:
            name = self.some(self.variables)
            domain, head, right = self.variables[name], '%s.%s' % (name, self.rng.choice(('lo', 'up', 'l', 'up', 'fx'))), self.value
        elif self.subsets:
            head = self.some(self.subsets) if self.is_likely(0.95) else self.some(self.sets)
            domain = [self.root(head)]
            right = lambda inside: 'yes$(%s)' % self.condition(inside) if self.is_likely(0.7) else self.rng.choice(('yes', 'no'))
        else:
            return 'option decimals = %d;' % self.rng.randrange(9)
        free = [it for it in domain if it not in map(self.root, around)]
        own = free if len(set(free)) == len(free) and self.is_likely(0.85) else []
        left = self.reference(head, domain, [*around, *own])
        inside = [*around, *(it for it in own if it in left)]
        return '%s%s = %s;' % (left, '$(%s)' % self.condition(inside) if self.is_likely(0.25) else '', right(inside))

    def loop(self):
        set_ = self.some([*self.sets, *self.subsets, *self.aliases])
        inner = [self.assignment([set_]) if self.is_likely(0.8) or not self.models else self.solve() for _ in range(self.rng.randrange(1, 4))]
        return 'loop(%s%s, %s);' % (set_, '$(%s)' % self.condition([set_], 0) if self.is_likely(0.3) else '', ' '.join(inner))

    def display(self):
        items = ["'words'"] + [*self.sets, *self.subsets, *self.parameters] * 2
        items += ['%s.%s' % (it, suffix) for it in self.variables for suffix in ('l', 'm', 'lo', 'up')] + ['%s.m' % it for it in self.equations]
        items += ['%s.modelstat' % it for it in self.models]
        return 'display %s;' % ', '.join(self.rng.choice(items) for _ in range(self.rng.randrange(1, 4)))

    def statement(self):
        kind = self.rng.randrange(40)
        if kind < 3:
            return self.new_set()
        if kind < 5:
            return self.new_subset()
        if kind == 5:
            return self.new_alias()
        if kind < 9:
            return self.new_parameter()
        if kind == 9:
            return self.new_variable()
        if kind < 13:
            return self.new_model() if len(self.models) < 3 else self.solve()
        if kind < 16 and self.models:
            return self.solve()
        if kind < 19:
            return self.loop()
        if kind == 19:
            return 'option %s;' % self.rng.choice(OPTIONS)
        if kind == 20:
            return 'abort$(%s) "enough";' % self.condition([], 0)
        if kind == 21 and self.variables and self.is_likely(0.15):
            return 'positive variable %s;' % self.some(self.variables)
        return self.display() if kind < 29 else self.assignment()

    def part(self, first, count):
        """A source of n statements more; the first one begins with sets and data."""
        lines = [self.new_set(), self.new_set(), self.new_parameter()] if first else []
        lines += [self.statement() for _ in range(count)]
        has_table = any(line.startswith('table') for line in lines)
        text = ('\n' if has_table else self.rng.choice((' ', '\n', '\n\n'))).join(lines)
        return ((text.rstrip(';\n') if self.is_likely(0.2) else text) + self.rng.choice(ENDS)).encode()


def drawn(rng):
    """The sources of a chain: the base case, and one or two that restart from it."""
    study = Study(rng)
    return [study.part(k == 0, rng.randrange(1, 9)) for k in range(rng.choice((2, 2, 2, 3)))]
