"""The run at a glance: solves, displays in short, and errors under their source lines."""
from typing import Iterator, List, Optional

from .events import visible
from .explained import explained
from .model import Display, Error, Listing, Solve
from .output import cut, terminal_width, wrapped
from .words import counted, meaning_of, objective_text, run_in_words

TAB = 8


def caret_line(raw: bytes, column: int) -> str:
    """Blanks up to the place of a column of a source line, and a caret. Columns count bytes, and
    tabs as 8 places."""
    place, kept = 1, b''
    for byte in raw:
        if place >= column:
            break
        step = TAB - (place - 1) % TAB if byte == 9 else 1
        kept += b' ' * step if byte == 9 else bytes([byte])
        place += step
    kept += b' ' * (column - place)
    return ' ' * len(kept.decode('utf-8', 'replace')) + '^'


def shown_line(raw: bytes) -> str:
    """A source line with its tabs as blanks."""
    place, kept = 0, b''
    for byte in raw:
        step = TAB - place % TAB if byte == 9 else 1
        kept += b' ' * step if byte == 9 else bytes([byte])
        place += step
    text = kept.decode('utf-8', 'replace').rstrip('\r')
    # A terminal acts on none of it.
    return ''.join(it if it.isprintable() else '\ufffd' for it in text)


def source_line(listing: Listing, number: int) -> Optional[bytes]:
    """The echoed line of this number, where the listing has it."""
    place = number - listing.first_line
    return listing.echo[place] if 0 <= place < len(listing.echo) else None


def excerpt(listing: Listing, error: Error, width: int) -> Iterator[str]:
    """The source line of an error with a caret below its column, moved so that the place is within
    the width."""
    raw = source_line(listing, error.line)
    if raw is None:
        where = 'in the saved source, which' if error.line < listing.first_line else 'which'
        yield '  %s this listing does not show' % where
        return
    head = '%6d  ' % error.line
    line, caret = shown_line(raw), caret_line(raw, error.column)
    room = max(20, width - len(head))
    start = max(0, len(caret) - room // 2) if len(line) > room and len(caret) > room * 3 // 4 else 0
    if start:
        line, caret = '…' + line[start + 1:], caret[start:]
    yield head + cut(line, room)
    yield ' ' * len(head) + caret


def error_lines(listing: Listing, error: Error, width: int) -> Iterator[str]:
    """An error: its name and place, its source line, what it means and the usual cause."""
    yield '%s error %d %s at line %d column %d' % (error.kind, error.code, error.name, error.line, error.column)
    yield from excerpt(listing, error, width)
    if error.where:
        yield '  with %s' % error.where
    if error.count:
        yield '  count %s' % error.count
    told = explained(error.kind, error.code)
    yield from wrapped(told.means, width, '  ')
    if told.causes:
        yield from wrapped('Usual cause: %s' % told.causes[0], width, '  ')


def solve_lines(solve: Solve) -> Iterator[str]:
    """A solve in four lines."""
    yield 'Solve %d, line %d: %s %s %s' % (solve.number, solve.line, solve.model, solve.direction, solve.objective)
    yield '  %s' % meaning_of(solve)
    if solve.value:
        yield '  %s = %s' % (solve.objective, objective_text(solve))
    if solve.counts:
        yield '  %s, %s, %s' % (counted(solve.counts.rows, 'row'), counted(solve.counts.columns, 'column'),
                                counted(solve.counts.nonzeros, 'number', 'numbers') + ' other than 0')
    if solve.effort:
        yield '  %s of %s, %d allowed' % (counted(solve.effort.pivots, 'pivot'), solve.effort.solver, solve.effort.limit)


def extent(display: Display) -> str:
    """How many entries a display has, and from which number to which."""
    if not display.count:
        return 'empty' if display.kind == 'SET' else 'all zero'
    text = counted(display.count, 'member' if display.kind == 'SET' else 'entry', 'members' if display.kind == 'SET' else 'entries')
    if not display.least or not display.most:
        return text
    return '%s, %s' % (text, display.least if display.least == display.most else 'from %s to %s' % (display.least, display.most))


def display_line(display: Display) -> str:
    """A display in one line."""
    if display.kind == 'TEXT':
        return '  line %d  %s' % (display.line, display.name)
    if display.value:
        return '  line %d  %s = %s' % (display.line, display.name, display.value)
    return '  line %d  %s %s: %s' % (display.line, display.kind.lower(), display.name, extent(display))


def cut_lines(listing: Listing) -> Iterator[str]:
    """What there is of a listing that was cut off."""
    if listing.is_cut:
        yield 'The listing was cut off after line %d%s.' % (
            listing.lines - (1 if listing.cut else 0), ', in the line "%s"' % visible(listing.cut[:40]) if listing.cut else '')
        yield '  gams25 ended with status 5 (a file could not be written) or 6 (out of memory), or still runs.'


def glance(listing: Listing) -> List[str]:
    """The run at a glance, in the order of the listing."""
    width = terminal_width()
    lines = ['%s: %s; %s, %s' % (listing.name, run_in_words(listing), counted(len(listing.solves), 'solve'),
                                 counted(len(listing.errors), 'error'))]
    if listing.is_restarted:
        lines.append('A restarted run: its own source begins at line %d.' % listing.first_line)
    shown = 0
    for number in range(len(listing.solves) + 1):
        if number:
            lines += [''] + list(solve_lines(listing.solves[number - 1]))
        displays = [it for it in listing.displays if it.after == number]
        if displays:
            lines += ['', 'Displays' if shown or number else 'Displays before the first solve' if listing.solves else 'Displays']
            lines += [cut(display_line(it), width) for it in displays]
    for error in listing.errors:
        lines += [''] + list(error_lines(listing, error, width))
    if listing.is_cut:
        lines += [''] + list(cut_lines(listing))
    return lines
