"""The reserved words of the language (docs/LANGUAGE.md, "Words, numbers, symbols")."""

STATEMENT_WORDS = frozenset(
    'abort alias binary display equation equations free integer loop model models negative option options parameter parameters positive '
    'scalar scalars set sets solve sos1 sos2 table variable variables'.split())

VALUE_WORDS = frozenset('and card eq ge gt inf le lt na ne no not or ord prod smax smin sum xor yes'.split())

# How many arguments a function takes, at least and at most.
FUNCTION_ARGUMENTS = {'abs': (1, 1), 'ceil': (1, 1), 'floor': (1, 1), 'round': (1, 1), 'sign': (1, 1), 'sqr': (1, 1), 'trunc': (1, 1),
                      'mod': (2, 2), 'power': (2, 2), 'max': (2, None), 'min': (2, None)}
LEFT_OUT_FUNCTIONS = frozenset('arctan cos errorf exp log log10 normal sin sqrt uniform'.split())

PART_WORDS = frozenset('all lp maximizing minimizing using'.split())

LEFT_OUT_WORDS = frozenset('acronym eps file for if put undf while'.split())

RESERVED = (STATEMENT_WORDS | VALUE_WORDS | PART_WORDS | LEFT_OUT_WORDS | LEFT_OUT_FUNCTIONS | frozenset(FUNCTION_ARGUMENTS))

SUFFIXES = frozenset('lo up l m fx modelstat solvestat'.split())
