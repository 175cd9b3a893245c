"""The code blocks of the documents: what each is, and the folders in which documents are."""
import os
import re
from dataclasses import dataclass

TOP = os.path.dirname(os.path.dirname(os.path.abspath(__file__)))
FOLDERS = ['.', 'docs', 'docs/internals', 'examples', 'editors', 'reference', 'tests', 'tests/show', 'bench']
KINDS = {'gams', 'listing', 'sh', 'output', 'text', 'json', 'cases'}
FENCE = re.compile(r'```(\S*)(.*)')


@dataclass
class Block:
    """A fenced block: its kind, the marks after it, its text, its line, and the source that a
    comment puts before it.
    """
    kind: str
    marks: list
    text: str
    line: int
    given: str

    def value(self, name: str, default: str = '') -> str:
        """What a mark `name=..` says."""
        return next((it[len(name) + 1:] for it in self.marks if it.startswith(name + '=')), default)


def documents() -> list:
    """The names of all documents, from the top."""
    found = []
    for folder in FOLDERS:
        path = os.path.join(TOP, folder)
        if os.path.isdir(path):
            found += [os.path.normpath(os.path.join(folder, it)) for it in sorted(os.listdir(path)) if it.endswith('.md')]
    return found


def lines_of(document: str) -> list:
    """The lines of a document."""
    with open(os.path.join(TOP, document), encoding='utf-8') as stream:
        return stream.read().split('\n')


def blocks_of(document: str) -> list:
    """The fenced blocks of a document, in order. `<!-- given`, on a separate line, begins a source
    that the blocks after it take.
    """
    found, given, lines = [], '', iter(enumerate(lines_of(document), 1))
    for number, line in lines:
        fence = FENCE.fullmatch(line.strip())
        if line == '<!-- given':
            taken = []
            for _, inner in lines:
                if inner == '-->':
                    break
                taken.append(inner)
            given = ''.join(it + '\n' for it in taken)
        elif fence:
            taken = []
            for _, inner in lines:
                if inner.strip() == '```':
                    break
                taken.append(inner)
            found.append(Block(fence[1], fence[2].split(), ''.join(it + '\n' for it in taken), number, given))
    return found


def sources_of(blocks: list) -> list:
    """The whole source of each block ```gams, in order, with its block.

    The mark `part` puts the source of the last comment `<!-- given` before it; `add` puts it after
    the source that its file has so far, and keeps both as the file; `try` does that and does not
    keep it.
    """
    files, found = {}, []
    for block in blocks:
        if block.kind != 'gams':
            continue
        file = block.value('file', 'a.gms')
        before = files.get(file, '') if {'add', 'try'} & set(block.marks) else ''
        source = before + (block.given if 'part' in block.marks else '') + block.text
        if 'try' not in block.marks:
            files[file] = source
        found.append((block, source))
    return found


def prose_of(document: str) -> list:
    """The numbered lines of a document that are in no fenced block and no comment."""
    found, is_code, is_comment = [], False, False
    for number, line in enumerate(lines_of(document), 1):
        if line.strip().startswith('```'):
            is_code = not is_code
        elif line.startswith('<!--') and not is_code:
            is_comment = '-->' not in line
        elif is_comment:
            is_comment = line != '-->'
        elif not is_code:
            found.append((number, line))
    return found
