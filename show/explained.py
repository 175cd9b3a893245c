"""What each error means and its usual causes, from `errors.json` beside this module."""
import json
import os
from functools import lru_cache
from typing import Dict, List, NamedTuple, Tuple

PATH = os.path.join(os.path.dirname(os.path.abspath(__file__)), 'errors.json')


class Explanation(NamedTuple):
    """One error: what it means in a sentence, and its usual causes."""
    means: str
    causes: List[str]


@lru_cache(maxsize=1)
def explanations() -> Dict[Tuple[str, int], Explanation]:
    """The explanations by kind and code, of several the last; none where the file cannot be
    read."""
    try:
        with open(PATH, encoding='utf-8') as stream:
            entries = json.load(stream)
        return {(str(it['kind']), int(it['code'])): Explanation(str(it['means']), [str(cause) for cause in it['causes']])
                for it in entries}
    except (OSError, ValueError, KeyError, TypeError):
        return {}


def explained(kind: str, code: int) -> Explanation:
    """The explanation of an error; where there is none, where to look."""
    fallback = Explanation('docs/ERRORS.md explains %s error %d.' % (kind.lower(), code), [])
    known = explanations()
    return known.get((kind.lower(), code)) or known.get(('save', code), fallback)
