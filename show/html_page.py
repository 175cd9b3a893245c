"""`html`: one page with the run at a glance, the reason, the certificate, tables and charts."""
from fractions import Fraction
from html import escape
from itertools import zip_longest
from typing import Dict, List, Optional

from . import model as m
from .check import FALSE, VERIFIED, check_solve
from .check_text import check_lines, result_of
from .cli import Request
from .drawing import Frame
from .glance import error_lines
from .labels import PLAIN_HINT, Labels
from .model import Listing, Solve
from .output import say
from .page_charts import charts_for
from .page_tables import TableColumn, plain_table, table
from .reader import chosen, read_listing
from .style import SCRIPT, STYLE
from .symbols import Symbol, of_display, of_solve, solved_names
from .table import domain_of
from .why import why_head, why_lines
from .words import counted, exit_status, meaning_of, objective_text, run_in_words

POLICY = "default-src 'none'; style-src 'unsafe-inline'; script-src 'unsafe-inline'"
CODE_WIDTH = 110
SOLVE_HEADINGS = ['solve', 'line', 'model', 'status', 'objective', 'rows', 'columns', 'numbers', 'solver', 'pivots']


class Page:
    """The parts of a page, section by section."""

    def __init__(self, listing: Listing, solve: Optional[Solve], is_plain: bool = False) -> None:
        self.listing = listing
        self.solve = solve
        self.labels = Labels(listing, is_plain)
        self.parts: List[str] = []
        self.sections: List[str] = []
        self.tables = 0

    def section(self, name: str, title: str) -> None:
        self.sections.append('<a href="#%s">%s</a>' % (name, escape(title)))
        self.parts.append('<h2 id="%s">%s</h2>' % (name, escape(title)))

    def pre(self, lines: List[str]) -> None:
        self.parts.append('<pre tabindex="0">%s</pre>' % escape('\n'.join(lines)))

    def table_name(self) -> str:
        self.tables += 1
        return 'table%d' % self.tables

    def overview(self) -> None:
        """The solves, one a row, and the errors."""
        self.section('run', 'The run')
        listing = self.listing
        is_good = exit_status(listing) == 0
        self.parts.append('<p class="%s">%s</p>' % ('good' if is_good else 'bad', escape(sentence(run_in_words(listing)) + '; '
                          + counted(len(listing.solves), 'solve') + ', ' + counted(len(listing.errors), 'error'))))
        rows = []
        for it in listing.solves:
            counts = ['%d' % number for number in it.counts] if it.counts else ['', '', '']
            pivots = '%d of %d' % (it.effort.pivots, it.effort.limit) if it.effort else ''
            solver = it.effort.solver if it.effort else ''
            rows.append(['%d' % it.number, '%d' % it.line, '%s %s %s' % (it.model, it.direction, it.objective), meaning_of(it),
                         objective_text(it)] + counts + [solver, pivots])
        if rows:
            self.parts.append(plain_table(SOLVE_HEADINGS, rows, (2, 3, 8)))
        for error in listing.errors:
            self.pre(list(error_lines(listing, error, CODE_WIDTH)))

    def reason(self, solve: Solve) -> None:
        self.section('why', 'Why')
        self.pre([why_head(solve, self.listing)] + why_lines(solve))

    def certificate(self, solve: Solve) -> None:
        """The result of the check, and the exact numbers."""
        self.section('certificate', 'Certificate')
        found = check_solve(solve)
        result = result_of(solve, found)
        kind = {VERIFIED: 'good', FALSE: 'bad'}.get(result, 'note')
        self.parts.append('<div class="%s"><pre>%s</pre></div>' % (kind, escape('\n'.join(check_lines(solve, found)))))
        proof = solve.proof
        columns = [TableColumn('number', [], True), TableColumn('element', [], True), TableColumn('exact', [], False)]
        for word, numbers in (proof.numbers.items() if proof else ()):
            for element, value in numbers.items():
                for column, text in zip(columns, (word, element, str(value))):
                    column.texts.append(text)
        if columns[0].texts:
            self.parts.append('<details><summary>The %s of the certificate, exactly</summary>%s</details>'
                              % (counted(len(columns[0].texts), 'number'), table(self.table_name(), 'certificate', columns)))
        if proof and proof.bound is not None:
            self.parts.append('<p>The bound that they prove: <code>%s</code></p>' % escape(str(proof.bound)))

    def symbol(self, symbol: Symbol, levels: Dict[str, Fraction], marginals: Dict[str, Fraction]) -> None:
        """Charts and a table of one symbol."""
        self.parts.append('<div class="symbol"><h3>%s <span class="note">%s, %s</span></h3>'
                          % (escape(symbol.name), escape(symbol.kind), counted(len(symbol.cells), 'element')))
        ambiguous = symbol.ambiguous()
        if ambiguous:
            self.parts.append('<p class="note">The labels of %s can be read in several ways; such elements are not split%s.</p>'
                              % (escape(ambiguous.strip()), PLAIN_HINT if self.listing.is_restarted else ''))
        drawn: List[List[str]] = []
        if symbol.kind != 'set':
            for figure, exact in (('level', levels), ('marginal', marginals)):
                if figure in symbol.figures:
                    drawn.append(charts_for(self.listing, self.labels, symbol, figure, exact))
        # Marginals beside levels.
        pictures = [it for pair in zip_longest(*drawn, fillvalue='') for it in pair]
        if any(pictures):
            self.parts.append('<div class="charts">%s</div>' % ''.join(pictures))
        self.parts.append('</div>' + table(self.table_name(), symbol.name, symbol_columns(self.listing, symbol)))

    def scalars(self, symbols: List[Symbol]) -> None:
        """Rows and columns without indices, in one table."""
        if symbols:
            keys = ['lower', 'level', 'upper', 'marginal']
            rows = [[it.name, it.kind] + [getattr(it.cells[0].figures, key) for key in keys] for it in symbols]
            self.parts.append('<h3>Without indices</h3>' + plain_table(['name', 'kind'] + keys, rows, (0, 1)))

    def levels(self, solve: Solve) -> None:
        """Variables first, then equations."""
        found = [of_solve(solve, name, self.labels) for name in solved_names(solve)]
        symbols = [it for it in found if it is not None and it.cells]
        if not symbols:
            return
        self.section('levels', 'Levels and marginals')
        proof = solve.proof
        levels = dict(proof.of('level') or proof.of('point')) if proof else {}
        marginals = proof.of('marginal') if proof and solve.code == m.OPTIMAL else {}
        symbols.sort(key=lambda it: it.kind == 'equation')
        self.scalars([it for it in symbols if not it.cells[0].reading.labels])
        for it in symbols:
            if it.cells[0].reading.labels:
                self.symbol(it, {} if it.kind == 'equation' else levels, marginals)

    def displays(self) -> None:
        """What the run displays."""
        shown = [it for it in self.listing.displays]
        if not shown:
            return
        self.section('displays', 'Displays')
        values = [[it.name, '%d' % it.line, it.value] for it in shown if it.value]
        if values:
            self.parts.append(plain_table(['name', 'line', 'value'], values, (0,)))
        for it in shown:
            if it.kind == 'TEXT':
                self.parts.append('<p>%s <span class="note">line %d</span></p>' % (escape(it.name), it.line))
            elif not it.value and not it.entries:
                self.parts.append('<p>%s: %s <span class="note">line %d</span></p>'
                                  % (escape(it.name), 'empty' if it.kind == 'SET' else 'all zero', it.line))
            elif not it.value:
                self.symbol(of_display(it, self.labels), {}, {})

    def text(self) -> str:
        """The whole page."""
        title = 'gams25: %s' % self.listing.name
        return '\n'.join([
            '<!DOCTYPE html>', '<html lang="en">', '<head>', '<meta charset="utf-8">',
            '<meta http-equiv="Content-Security-Policy" content="%s">' % POLICY,
            '<meta name="viewport" content="width=device-width, initial-scale=1">',
            '<title>%s</title>' % escape(title), '<style>%s</style>' % STYLE, '</head>', '<body>',
            '<h1>%s</h1>' % escape(title), '<nav aria-label="sections">%s</nav>' % ' '.join(self.sections),
            '<main>', *self.parts, '</main>', '<script>%s</script>' % SCRIPT, '</body>', '</html>'])


def sentence(text: str) -> str:
    return text[:1].upper() + text[1:]


def symbol_columns(listing: Listing, symbol: Symbol) -> List[TableColumn]:
    """The labels of a symbol and its numbers, as columns of a table."""
    count = max((len(cell.reading.labels) for cell in symbol.cells), default=0)
    domain = [name if name != '*' else '' for name in domain_of(listing, symbol.name, count)] or [''] * count
    columns = [TableColumn(name or 'label %d' % (k + 1), [], True) for k, name in enumerate(domain)]
    figures = [TableColumn(it if len(symbol.figures) > 1 else 'value', [], symbol.kind == 'set') for it in symbol.figures]
    for cell in symbol.cells:
        labels = list(cell.reading.labels) + [''] * (count - len(cell.reading.labels))
        for column, text in zip(columns, labels):
            column.texts.append(text)
        for column, key in zip(figures, symbol.figures):
            column.texts.append(getattr(cell.figures, key))
    return columns + figures


def page_of(listing: Listing, solve: Optional[Solve], is_plain: bool = False) -> str:
    """The page of a listing; its reason, certificate and levels are those of one solve."""
    Frame.count = 0
    page = Page(listing, solve, is_plain)
    page.overview()
    if solve:
        if len(listing.solves) > 1:
            page.parts.append('<p class="note">What follows is of solve %d; <code>--solve K</code> chooses another.</p>' % solve.number)
        if solve.code == m.OPTIMAL:
            page.levels(solve)
        page.reason(solve)
        page.certificate(solve)
        if solve.code != m.OPTIMAL:
            page.levels(solve)
    page.displays()
    return page.text()


def run_html(request: Request) -> int:
    """The command `html`."""
    listing = read_listing(request.words[0], request.solve)
    solve = chosen(listing, request.solve) if listing.solves or request.solve else None
    say([page_of(listing, solve, 'plain' in request.options)])
    return exit_status(listing)

