"""The commands `check` and `why`."""
from typing import List

from .check import FALSE, OPEN, VERIFIED, check_solve
from .check_text import check_lines, last_line, result_of
from .cli import Request
from .glance import error_lines
from .output import say, terminal_width
from .reader import chosen, read_all, read_listing
from .why import why_head, why_lines
from .words import exit_status


def run_check(request: Request) -> int:
    """Checks one solve, or all; false counts over not decidable, and that over verified."""
    path = request.words[0]
    listing = read_all(path) if request.is_all else read_listing(path, request.solve, [])
    if not listing.solves and (request.is_all or 'solve' not in request.options):
        say(['%s has no solve; there is nothing to verify' % path])
        return OPEN
    solves = listing.solves if request.is_all else [chosen(listing, request.solve)]
    results: List[int] = []
    for solve in solves:
        found = check_solve(solve)
        results.append(result_of(solve, found))
        say(check_lines(solve, found))
    wrong = last_line(listing)
    say(wrong)
    if wrong:
        results.append(FALSE)
    return FALSE if FALSE in results else OPEN if OPEN in results else VERIFIED


def run_why(request: Request) -> int:
    """Tells the reason of a solve's answer; of a refused source its errors."""
    listing = read_listing(request.words[0], request.solve, [])
    if listing.errors and not listing.solves:
        for error in listing.errors:
            say(error_lines(listing, error, terminal_width()))
        return exit_status(listing)
    solve = chosen(listing, request.solve)
    say([why_head(solve, listing)] + why_lines(solve))
    return exit_status(listing)
