"""The words that this project avoids in prose, each with what to write instead, and where prose is.

Prose is what a reader reads as sentences: documents without their code, comments, and docstrings.
A word in `..` is code. Other senses of a word that are good English are left out of its pattern.
"""
import ast
import io
import os
import re
import tokenize
from typing import Iterator, List, NamedTuple, Tuple

Line = Tuple[int, str]                       # the number of a line, and what is prose in it


class Word(NamedTuple):
    """A word, as a pattern, and what to write instead."""
    pattern: str
    instead: str


WORDS = [Word(*it) for it in (
    (r'behind', 'after'),
    (r'in front of', 'before'),
    (r'fronts?', 'prefix'),
    (r'(?:stands?|stood|standing)(?! for\b|$)', 'is, occurs, is stored'),
    (r'wanting|want of|(?<!you )(?<!they )wants?|wanted', 'requires; lacks; out of memory'),
    (r'(?:is|are|was|were|be|been|the) said', 'printed'),
    (r'ask(?:s|ed)? for|what is asked|as asked', 'requests, requested'),
    (r'due(?! to\b)', 'expected'),
    (r'go(?:es)? on|going on|went on|goes it on', 'continues; resumes'),
    (r'stud(?:y|ies)', 'restarted run'),
    (r'sequels?', 'resumed run'),
    (r'seams?', 'joint source'),
    (r'what (?:is|was) taken|matters?|(?<!-)jobs?', 'input; request'),
    (r'walk(?:s|ed|ing)?', 'loop, traversal'),
    (r'grown', 'extended, appended'),
    (r'(?:is|are|was|were|be|what) left(?! out\b| of\b| or right\b| as\b| by\b|$)|left over', 'remains'),
    (r'(?:is|are|be) seen|seen as|as seen', 'is visible; the view'),
    (r'(?:rows?|dictionar(?:y|ies)) of whole numbers', 'integer rows'),
    (r'lines? of (?:a|the|each) dictionar(?:y|ies)|dictionary lines?', 'row'),
    (r'put off', 'deferred'),
    (r'c[oa]mes? to(?! be\b)|c[oa]mes? of', 'equals; results from'),
    (r'no clause', 'no contract states'),
    (r'wrong bod(?:y|ies)', 'mutant'),
    (r'rooms?|houses?|doors?|floors?', 'crate, layer; stays within'),
    (r'proof numbers?|numbers? proves?', 'certificate'),
    (r'(?:no|a) part passes', 'at most'),
    (r'told by|hosts? tells?', 'determined by; exposes'),
    (r'so many', 'n'),
    (r'stretch(?:es)?', 'field'),
    (r'way back', 'recovery'),
    (r'last dictionar(?:y|ies)', 'final dictionary'),
    (r'but (?:for|by)', 'except'),
    (r'one after another|each once', '(leave it out)'),
    (r'of (?:its|their|one\'s) own', '(leave it out)'),
    (r'ow(?:es?|ed)', 'must prove'),
    (r'words of (?:the|a) command', 'arguments'),
    (r'where there is (?:one|some)|what is there', '(name the thing)'),
)]
FOUND = [(re.compile(r'\b(?:%s)\b' % it.pattern, re.I), it) for it in WORDS]
SAME = re.compile(r'\W*the same\W*', re.I)    # as a whole comment
MOST_COLUMNS = 100


def document_prose(text: str) -> Iterator[Line]:
    """The prose of a document: no fenced blocks, no code in `..`, no targets of links, no comments.
    """
    is_code = is_comment = False
    for number, line in enumerate(text.split('\n'), 1):
        if re.match(r'\s*```', line):
            is_code = not is_code
        elif line.startswith('<!--') and not is_code:
            is_comment = '-->' not in line
        elif is_comment:
            is_comment = '-->' not in line
        elif not is_code:
            yield number, re.sub(r'\]\([^)\s]*\)|\b[\w/]+\.(?:gms|lst|sav|md)\b', ']', line)


def python_prose(text: str) -> Iterator[Line]:
    """The comments and docstrings of a Python source."""
    for token in tokenize.generate_tokens(io.StringIO(text).readline):
        if token.type == tokenize.COMMENT:
            yield token.start[0], token.string
    for node in ast.walk(ast.parse(text)):
        if isinstance(node, (ast.Module, ast.ClassDef, ast.FunctionDef)) and ast.get_docstring(node):
            first = node.body[0]
            for k, line in enumerate(first.value.value.split('\n')):
                yield first.lineno + k, line


def comment_prose(text: str, mark: str) -> Iterator[Line]:
    """The comments of a source that begin with a mark; none within a text in quotation marks."""
    for number, line in enumerate(text.split('\n'), 1):
        found = re.search(r'(?:^|\s)%s(?!-)(.*)' % mark, line)
        if found and line[:found.start()].count('"') % 2 == 0:
            yield number, found[1]


def prose_in(path: str) -> List[Line]:
    """The prose of a file; none where it is of another kind."""
    with open(path, encoding='utf-8', errors='replace') as stream:
        text = stream.read()
    first = text.split('\n', 1)[0]
    if path.endswith('.md'):
        return list(document_prose(text))
    if path.endswith('.py') or first.startswith('#!') and 'python' in first:
        return list(python_prose(text))
    if path.endswith(('.rs', '.rt')):
        return list(comment_prose(text, '//[/!]?'))
    if path.endswith('.antt'):
        return list(comment_prose(text, '--'))
    if first.startswith('#!') or os.path.basename(path) == 'Makefile':
        return list(comment_prose(text, '#'))
    return []


def words_in(path: str) -> Iterator[Tuple[int, str, Word]]:
    """The avoided words of a file, with the numbers of their lines. A word may cross a line end in
    a document.
    """
    for number, line in prose_in(path):
        bare = re.sub(r'`[^`]*`', '`', line)
        for pattern, word in FOUND:
            for found in pattern.finditer(bare):
                yield number, found[0], word
        if SAME.fullmatch(bare):
            yield number, bare.strip(), Word('the same', 'repeat the subject')


def wide_lines(path: str) -> Iterator[int]:
    """The lines of prose with over 100 columns. A row of a table, a heading and a link by itself
    cannot be broken.
    """
    with open(path, encoding='utf-8', errors='replace') as stream:
        lines = stream.read().split('\n')
    for number, _ in prose_in(path):
        line = lines[number - 1]
        if len(line) > MOST_COLUMNS and not re.match(r'\s*(?:\||#!|# \$|!?\[[^\]]*\]\(\S*\)$|\S+$)', line):
            yield number
