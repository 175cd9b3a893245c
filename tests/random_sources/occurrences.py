"""How often each production, error, status and text of the listing occurs in what the program
writes for the seeds.
"""
import re
from collections import Counter

from tests.random_sources import mistakes
from tests.random_sources.both import Outcome
from tests.random_sources.expressions import ONE, RELATIONS
from tests.random_sources.scenarios import Scenario

ERROR = re.compile(rb'^\*\*\* (Source|Compile|Execution) error (\d+) \w+ at', re.M)

# Texts of listings, of standard output and of saves, by what they are called in the table.
TEXTS = {
    'display of a text': rb'^---- \d+ [a-z]', 'display of a scalar': rb'^---- \d+ SCALAR \w+ = ', 'display of a status': rb'^---- \d+ SCALAR \w+\.\w+stat = ',
    'display of a variable without indices': rb'^---- \d+ VARIABLE \w+\.\w+ = ', 'display of an equation without indices': rb'^---- \d+ EQUATION \w+\.\w = ',
    'display of a set': rb'^---- \d+ SET ', 'display of a parameter': rb'^---- \d+ PARAMETER ', 'display of a variable': rb'^---- \d+ VARIABLE \w+\.\w+$',
    'display of an equation': rb'^---- \d+ EQUATION \w+\.\w$', '(all zero)': rb'^  \(all zero\)$', '(empty)': rb'^  \(empty\)$',
    'value +INF': rb' \+INF$', 'value -INF': rb' -INF$', 'value NA': rb' NA$', 'negative value': rb' -\d', 'value without decimals': rb'SCALAR \w+ = \d+$',
    'solve minimizing': rb'^---- \d+ SOLVE \w+ minimizing', 'solve maximizing': rb'^---- \d+ SOLVE \w+ maximizing', 'rows of an equation': rb'^EQUATION \w',
    'a row': rb'^ .+\.\. [+-] ', 'a row without terms': rb'^ .+\.\. 0 =', 'row =E=': rb'\.\. .* =E= ', 'row =L=': rb'\.\. .* =L= ', 'row =G=': rb'\.\. .* =G= ',
    'row =N=': rb'\.\. .* =N= ', '(N more rows)': rb'^ \(\d+ more rows\)', '(no rows)': rb'^ \(no rows\)', 'columns of a variable': rb'^VARIABLE \w',
    'a column with bounds': rb'^ .+ lower -?\d.* upper -?\d', 'a column without bounds': rb'^ .+ lower -INF upper \+INF', '(N more columns)': rb'^ \(\d+ more columns\)',
    'counts': rb'^ROWS \d', 'solver bland': rb'^SOLVER bland ', 'solver dantzig': rb'^SOLVER dantzig ',
    'solver steepest': rb'^SOLVER steepest ', 'solver any': rb'^SOLVER any ', 'over 9 pivots': rb'PIVOTS \d\d',
    'solver status 1': rb'^SOLVER STATUS 1 ', 'solver status 2': rb'^SOLVER STATUS 2 ', 'solver status 4': rb'^SOLVER STATUS 4 ', 'objective': rb'^OBJECTIVE ',
    'levels of an equation': rb'^EQU \w', 'levels of a variable': rb'^VAR \w', 'a dot for 0': rb'  \.(?: |$)', 'UNBND': rb' UNBND$', 'NOPT': rb' NOPT$',
    'a number rounded to 0': rb' 0\.000$', 'level': rb'^  level ', 'marginal': rb'^  marginal ', 'bound': rb'^  bound -?\d', 'factor of a row': rb'^  row ',
    'crossed': rb'^  crossed ', 'point': rb'^  point ', 'ray': rb'^  ray ', 'phase 1': rb'^  phase 1 ', 'phase 2': rb'^  phase 2 ',
    'step Standard part 0': rb'^  step Standard .* 0$', 'step Standard part 1': rb'^  step Standard .* 1$', 'step Ratio': rb'^  step Ratio ',
    'step Exchange part 0': rb'^  step Exchange .* 0$', 'step Exchange part 1': rb'^  step Exchange .* 1$', 'step Recover 0': rb'^  step Recover 0 ',
    'step Recover 1 part 0': rb'^  step Recover 1 .*0$', 'step Recover 1 part 1': rb'^  step Recover 1 .*1$',
    'bound not shown': rb'^  bound not shown', 'fault with labels': rb'^\*\*\* Exec.* with ', 'fault with a count': rb' count \d+$',
    'status 0': rb'^END status 0 ', 'status 2': rb'^END status 2 ', 'status 3': rb'^END status 3 ', 'two solves and more': rb'^END .* solves [2-9]',
    'said: status': rb'^status \d, solves', 'said: usage': rb'^usage: ', 'said: cannot read': rb'^cannot read ', 'said: generated': rb'^generated ',
    'said: ranges': rb'^ranges of solve ', 'range of a right side': rb'^  right .* from -?\d', 'range of a cost': rb'^  cost .* from -?\d', 'range from -INF': rb' from -INF to',
    'range to +INF': rb' to \+INF$', 'range not shown': rb' not shown$', 'save': rb'^gams25 save 1', 'saved settings': rb'^settings ', 'saved set': rb'^set \w+ \d+$',
    'saved parameter': rb'^parameter \w+ \d+$', 'saved variable': rb'^variable \w+ \d+$', 'saved equation': rb'^equation \w+ \d+$', 'saved model': rb'^model \w+ \d+ \d+$',
    'saved alias': rb'^alias \w+$', 'saved settings off': rb'^settings .* off ',
}
PATTERNS = {name: re.compile(text, re.M) for name, text in TEXTS.items()}
MODEL_STATUSES = ['1 Optimal', '3 Unbounded', '4 Infeasible', '6 Intermediate Infeasible', '7 Intermediate Nonoptimal', '13 Error No Solution']
EXITS = ['exit %d' % it for it in (0, 1, 2, 3, 4, 5)]
CODES = {'Source': [*mistakes.SOURCE, 9, 41, 42, 43], 'Compile': [*mistakes.COMPILE, 22], 'Execution': [*mistakes.EXECUTION]}
PRODUCTIONS = (
    ['declaration ' + it for it in ('set', 'parameter', 'scalar', 'variable', 'equation')] + ['type ' + it for it in ('left out', 'free', 'positive', 'negative')]
    + ['relation ' + it for it in RELATIONS] + ['function ' + it for it in ONE + ['mod', 'power', 'max', 'min']]
    + ['fold ' + it for it in ('sum', 'prod', 'smin', 'smax')] + ['lag ' + it for it in ('+', '-', '++', '--')]
    + ['sense ' + it for it in ('=e=', '=l=', '=g=', '=n=')] + ['set side ' + it for it in ('+', '-', '*', 'not', 'yes', 'no', '$')]
    + ['assignment ' + it for it in ('parameter', 'scalar', 'set', 'variable', '.lo', '.up', '.l', '.m', '.fx', 'with a condition')]
    + ['reference ' + it for it in ('parameter', 'scalar', 'variable', 'equation', 'model')] + ['suffix ' + it for it in ('l', 'm', 'lo', 'up', 'modelstat', 'solvestat')]
    + ['shown ' + it for it in ('text', 'set', 'parameter', 'scalar', 'variable', 'equation', 'model', '.l', '.m', '.lo', '.up', '.modelstat', '.solvestat')]
    + ['option ' + it for it in ('limrow', 'limcol', 'iterlim', 'decimals', 'solprint', 'lp', 'other')]
    + ['solve ' + it for it in ('minimizing', 'maximizing', 'with using first', 'with using last', 'in a loop')]
    + '''text of a name,domain,domain *,list,range,element of several labels,list of labels in parentheses,text of an element,inf and na in data,alias,
alias in the other order,type given once more,table,table with more headings,model,model of all,model without equations,definition,definition with a condition,
index set,index label,lag by an expression,control of one set,control of several sets,control with a condition,condition,condition with not,
set or parameter as a condition,set as an operand of logic,or,and,xor,not,sign of a sum,sum +,sum -,product *,product /,sign after * or /,power **,guarded operand,
number,inf and na in an expression,ord,card,sign in the right side of a set,sum of variables,constant in a side,variable in a side,variable with a condition,
linear side in parentheses,loop,abort,statement without ;,last statement without ;,comments and control lines'''.replace('\n', '').split(','))


class Table:
    """Counts over seeds; a production counts where the program found no source error."""

    def __init__(self) -> None:
        names = [*PRODUCTIONS, *(self.error(kind, code) for kind, codes in CODES.items() for code in codes), *EXITS, *MODEL_STATUSES, *TEXTS]
        self.counts: Counter[str] = Counter({name: 0 for name in names})

    @staticmethod
    def error(kind: str, code: int) -> str:
        """The name of an error in the table."""
        return '%s error %d' % (kind, code)

    def add(self, scenario: Scenario, outcomes: list[Outcome]) -> None:
        """Counts a scenario by what the program left."""
        written = b'\n'.join(it.says for it in outcomes)
        for place, outcome in enumerate(outcomes):
            before = {**(outcomes[place - 1].files if place else {}), **scenario.steps[place].files}
            written += b'\n'.join([b''] + [text for name, text in outcome.files.items() if before.get(name) != text])
        if b'*** Source error' not in written:
            self.counts.update(it for it in scenario.notes)
        self.counts.update(self.error(kind.decode(), int(code)) for kind, code in set(ERROR.findall(written)))
        self.counts.update(name for name, pattern in PATTERNS.items() if pattern.search(written))
        self.counts.update(it for it in MODEL_STATUSES if b'MODEL STATUS ' + it.encode() in written)
        self.counts.update({'exit %s' % it.status for it in outcomes})

    def missing(self) -> list[str]:
        """What did not occur."""
        return [name for name, count in self.counts.items() if not count]

    def lines(self) -> list[str]:
        """The table, in columns of names with the number of seeds in which they occur."""
        return ['%7d  %s' % (count, name) for name, count in self.counts.items()]
