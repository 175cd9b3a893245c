"""Mistakes that are planted in a copy of the reference, one at a time: a file of the package, its
words, and the words that replace them.
"""
from typing import NamedTuple


class Mistake(NamedTuple):
    """A textual edit; the words occur once in the file."""
    file: str
    words: str
    instead: str


MISTAKES = [Mistake(*it) for it in [
    # numbers
    ('exact.py', 'if not is_within(first, second, both, below)', 'if not is_within(both // h, below)'),
    ('exact.py', 'LIMIT = 2 ** 127 - 1', 'LIMIT = 2 ** 127'),
    ('exact.py', 'if not is_within(value.numerator, value.denominator)', 'if not is_within(value.numerator)'),
    ('texts.py', 'units = (2 * numerator + denominator) // (2 * denominator)', 'units = (2 * numerator + denominator - 1) // (2 * denominator)'),
    ('texts.py', "sign = '-' if value < 0 and units else ''", "sign = '-' if value < 0 else ''"),
    ('texts.py', 'if numerator > LIMIT or denominator > LIMIT:', 'if numerator > LIMIT:'),
    ('extended.py', 'return abs(x.numerator) // x.denominator * sign_of(x)', 'return x.numerator // x.denominator'),
    ('extended.py', 'return 0 if n < 0 else infinity(1 if x is INF or n % 2 == 0 else -1)', 'return 0 if n < 0 else infinity(sign_of(x))'),
    ('extended.py', 'return NA if NA in (x, y) else y if is_less(x, y) else x', 'return y if is_less(x, y) else x'),
    # the standard form
    ('standard.py', "'E': [upper, negated(upper)]", "'E': [negated(upper), upper]"),
    ('standard.py', 'Shift(column.upper, -1, last)', 'Shift(column.upper, 1, last)'),
    ('standard.py', "taken('-', column.upper, column.lower,", "taken('-', column.upper, 0,"),
    ('standard.py', "result[CONSTANT] = taken('-', result[CONSTANT], moved,", "result[CONSTANT] = taken('+', result[CONSTANT], moved,"),
    # pivots
    ('simplex.py', '(self.basis[row] for row in rows)', '(-self.basis[row] for row in rows)'),
    ('choice.py', "'bland': lambda dictionary, improving: min(improving)", "'bland': lambda dictionary, improving: max(improving)"),
    ('choice.py', 'return max(sorted(values), key', 'return max(sorted(values, reverse=True), key'),
    ('choice.py', 'self.idle >= self.variables', 'self.idle > self.variables'),
    ('choice.py', '(self.turned or self.idle >= self.variables)', 'self.idle >= self.variables'),
    ('choice.py', 'length = total(length, product(number, number))', 'length = total(length, number)'),
    ('choice.py', '[:most]', ''),
    ('choice.py', '(len(dictionary.basis) + 1)', 'len(dictionary.basis)'),
    ('choice.py', 'leading((x.numerator << 160) // x.denominator, -160)', 'quotient(leading(x.numerator), leading(x.denominator))'),
    ('choice.py', "('steepest', 'shortest', 'gain', 'row', 'both', 'largest', 'bland',", "('steepest', 'gain', 'shortest', 'row', 'both', 'largest', 'bland',"),
    ('choice.py', 'bits(it.number.numerator) + bits(it.number.denominator)', 'bits(it.number.numerator)'),
    ('choice.py', 'bits(it.number.numerator) - it.of_gain', 'bits(it.number.numerator) - 2 * it.of_gain'),
    ('choice.py', '2 * it.in_row - it.of_gain', 'it.in_row - it.of_gain'),
    ('choice.py', '- 3 * it.of_gain', '- 2 * it.of_gain'),
    ('solve.py', 'form.all_variables', 'form.variables'),
    ('simplex.py', 'row.get(CONSTANT, 0) < 0 for row', 'row.get(CONSTANT, 0) <= 0 for row'),
    ('simplex.py', 'for key in sorted(old)}', 'for key in sorted(old, reverse=True)}'),
    ('simplex.py', 'for place, row in enumerate(self.rows):', 'for place, row in reversed(list(enumerate(self.rows))):'),
    ('solve.py', 'if entering and not dictionary.limiting(entering):', 'if len(pivots) < limit and entering and not dictionary.limiting(entering):'),
    ('solve.py', 'column.lower > column.upper', 'column.lower >= column.upper'),
    # recovery, bounds and ranges
    ('recovery.py', "{'L': 1, 'G': -1, 'N': 0}", "{'L': 1, 'G': 1, 'N': 0}"),
    ('recovery.py', "taken('+', cost, multiplier,", "taken('-', cost, multiplier,"),
    ('recovery.py', '{variable: -dictionary.number(row, entering)', '{variable: dictionary.number(row, entering)'),
    ('recovery.py', 'duals(program, form, dictionary, -1)', 'duals(program, form, dictionary, 1 if program.maximize else -1)'),
    ('certificate.py', "if row.sense != 'N' and column in row.coefficients:", 'if column in row.coefficients:'),
    ('certificate.py', '(factor > 0) == is_low', 'factor > 0'),
    ('ranges.py', 'low = end if low is None else max(low, end)', 'low = end if low is None else min(low, end)'),
    ('ranges.py', "-first if sense == 'G' else first", 'first'),
    ('ranges.py', '-sign * gain', '-gain'),
    # values
    ('values.py', 'if 0 <= place < len(members) else None', 'if 0 < place < len(members) else None'),
    ('values.py', 'place %= len(members)', 'place %= max(1, len(members) - 1)'),
    ('values.py', 'for guard in reversed(e.guards)', 'for guard in e.guards'),
    ('values.py', 'holds = holds or self.holds(operand, binding)', 'holds = self.holds(operand, binding) or holds'),
    ('values.py', "{'sum': 0, 'prod': 1}", "{'sum': 0, 'prod': 0}"),
    ('values.py', "'-': holds and not right", "'-': holds != right"),
    ('values.py', 'MOST_IN_DOMAIN = 16_777_216', 'MOST_IN_DOMAIN = 16_785_409'),
    # rows and the run
    ('forms.py', '        if number:\n            left.numbers[key] = number\n', '        if number is not None:\n            left.numbers[key] = number\n'),
    ('rows.py', '-form.constant)', 'form.constant)'),
    ('rows.py', "{'L': 1, 'G': 1, 'E': 2, 'N': 0}", "{'L': 1, 'G': 1, 'E': 1, 'N': 0}"),
    ('run.py', 'computed.append((element, self.right(s, symbol, inside)))', 'self.put(symbol, s.target, element, self.right(s, symbol, inside))'),
    ('run.py', "{'lo': value, 'up': value, 'l': value}", "{'lo': value, 'up': value}"),
    ('run.py', "marginals[place] if answer.status == 'Optimal' else 0", "marginals[place] if answer.status == 'Optimal' else self.state.entry(symbol, element).m"),
    ('state.py', 'if entry == first_entry(symbol):', 'if entry is None:'),
    # texts of the listing
    ('listing.py', "' (%d more rows)' % (len(rows) - limit)", "' (%d more rows)' % len(rows)"),
    ('listing.py', "'.' if value == 0 else rounded(value)", "'.' if rounded(value) == '0.000' else rounded(value)"),
    ('listing.py', "'OBJECTIVE ' + rounded(state.entry(objective, ()).l)", "'OBJECTIVE ' + rounded(state.entry(objective, ()).l, state.settings.decimals)"),
    # tokens, tables, checks and saves
    ('tokens.py', "return not line.lstrip(' \\t')[label.end():].startswith('.')", 'return True'),
    ('tables.py', 'first < it.end and it.first < end', 'first <= it.end and it.first < end'),
    ('source.py', 'expandtabs(8)', 'expandtabs(4)'),
    ('checks.py', 'return list(dict.fromkeys(named.name for named in model.equations))', 'return [named.name for named in model.equations]'),
    ('checks.py', "if objective and (objective.type != 'free' or objective.domain):", "if objective and objective.type != 'free':"),
    ('expression_checks.py', "'/': has_here", "'/': has and has_here"),
    ('symbols.py', 'first < second for first, second', 'first <= second + 1 for first, second'),
    ('saves.py', 'if symbol.name not in dynamic and members != set(symbol.data):', 'if members is None:'),
    ('saves.py', 'other_than(0, read_value(*rest))', 'read_value(*rest)'),
    ('saves.py', 'other_than(first_entry(symbol), read_entry(rest))', 'read_entry(rest)'),
    ('saves.py', 'if count(value) > MOST_OF_OPTION[word]:', 'if count(value) > 2 ** 31 - 1:'),
    ('saves.py', 'if SOLVER_STATUS_OF.get(model) != solver:', 'if model not in SOLVER_STATUS_OF:'),
    ('saves.py', 'or position is not None and label not in position.labels:', 'or position is not None and not position.labels:'),
    ('saves.py', 'if label >= len(state.tree.labels.texts)', 'if label >= 65_536'),
    ('saves.py', 'if not all(is_possible(suffix, value)', "if not all(suffix in ('lo', 'up') or is_possible(suffix, value)"),
    ('exact.py', 'if denominator and is_within(numerator, denominator) else None', 'if denominator else None'),
]]
