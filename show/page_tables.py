"""Tables of a page: sorted and filtered by the page's own script, complete without it."""
from dataclasses import dataclass, field
from fractions import Fraction
from html import escape
from typing import Dict, List, Optional, Sequence, Tuple

from .exact import MINUS_INFINITY, NOT_AVAILABLE, number_of

MOST_ROWS = 3000               # of one table; csv has them all
FILTER_FROM = 9                # rows from which a table has a filter


@dataclass
class TableColumn:
    """A column of a table: its heading, its texts, and whether they are labels."""
    heading: str
    texts: List[str] = field(default_factory=list)
    is_text: bool = False


def order_key(text: str) -> Tuple[int, Fraction]:
    """Where a printed number comes: -INF, numbers, +INF, NA, nothing."""
    if not text or text == NOT_AVAILABLE:
        return 3, Fraction(0)
    value = number_of(text)
    if value is None:
        return (0 if text == MINUS_INFINITY else 2), Fraction(0)
    return 1, value


def ranks(column: TableColumn) -> List[int]:
    """The rank of each text of a column, by which the script sorts."""
    if column.is_text:
        first: Dict[str, int] = {}
        for text in column.texts:
            first.setdefault(text, len(first))
        return [first[text] for text in column.texts]
    keys = [order_key(text) for text in column.texts]
    place = {key: k for k, key in enumerate(sorted(set(keys)))}
    return [place[key] for key in keys]


def cell(text: str, rank: int, is_text: bool) -> str:
    kind = 'text' if is_text else 'zero' if text == '.' else ''
    return '<td data-rank="%d"%s>%s</td>' % (rank, ' class="%s"' % kind if kind else '', escape(text))


def table(name: str, title: str, columns: Sequence[TableColumn]) -> str:
    """A table that sorts and filters. The name is its id in the page."""
    count = len(columns[0].texts) if columns else 0
    shown = min(count, MOST_ROWS)
    heads = ''.join('<th scope="col"%s><button type="button">%s</button></th>'
                    % (' class="text"' if it.is_text else '', escape(it.heading)) for it in columns)
    ranked = [ranks(it) for it in columns]
    rows = ''.join('<tr>%s</tr>' % ''.join(cell(it.texts[k], rank[k], it.is_text) for it, rank in zip(columns, ranked))
                   for k in range(shown))
    parts: List[str] = []
    if count >= FILTER_FROM:
        parts.append('<p class="filter"><label>Filter <input type="search" data-table="{0}" placeholder="words of a row"></label> '
                     '<span id="{0}n" class="note" aria-live="polite">{1} of {1}</span></p>'.format(name, shown))
    parts.append('<div class="scroll" tabindex="0" role="region" aria-label="%s"><table class="sortable" id="%s"><thead><tr>%s</tr></thead>'
                 '<tbody>%s</tbody></table></div>' % (escape(title, True), name, heads, rows))
    if shown < count:
        parts.append('<p class="note">The first %d of %d rows; <code>gams25-show csv</code> has all of them.</p>' % (shown, count))
    return ''.join(parts)


def plain_table(headings: Sequence[str], rows: Sequence[Sequence[str]], texts: Optional[Sequence[int]] = None) -> str:
    """A short table without sorting; `texts` are the columns that are no numbers."""
    left = set(texts or ())
    head = ''.join('<th scope="col"%s>%s</th>' % (' class="text"' if k in left else '', escape(it)) for k, it in enumerate(headings))
    body = ''.join('<tr>%s</tr>' % ''.join('<td%s>%s</td>' % (' class="text"' if k in left else '', escape(it))
                                           for k, it in enumerate(row)) for row in rows)
    return '<div class="scroll"><table><thead><tr>%s</tr></thead><tbody>%s</tbody></table></div>' % (head, body)
