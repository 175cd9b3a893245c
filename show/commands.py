"""The commands by their names."""
from typing import Dict

from .check_command import run_check, run_why
from .cli import FIGURES, Command, Request
from .diff import run_diff
from .glance import glance
from .html_page import run_html
from .output import say
from .reader import read_heads
from .records import run_csv, run_json
from .table import run_table
from .words import exit_status


def run_glance(request: Request) -> int:
    listing = read_heads(request.words[0])
    say(glance(listing))
    return exit_status(listing)


COMMANDS: Dict[str, Command] = {
    'glance': Command(run_glance, 1, 1, 'one listing; gams25-show --help lists the commands', ('width',)),
    'table': Command(run_table, 2, 2, 'a name and one listing', ('solve', 'rows', 'columns', 'width', 'plain') + FIGURES),
    'csv': Command(run_csv, 1, 1000, 'names and one listing', ('solve', 'plain')),
    'json': Command(run_json, 1, 1000, 'names and one listing', ('solve', 'plain')),
    'check': Command(run_check, 1, 1, 'one listing', ('solve',)),
    'why': Command(run_why, 1, 1, 'one listing', ('solve', 'width')),
    'html': Command(run_html, 1, 1, 'one listing', ('solve', 'plain')),
    'diff': Command(run_diff, 2, 2, 'two listings', ('solve', 'width')),
}
