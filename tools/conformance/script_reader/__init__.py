"""A second reader of scripts: it says what `check` is to say of one.

It rests on the grammar, the rules and the size of scripts as `docs/SPECIFICATION.md` tells them. Whether tokens begin a
script is found out by all derivations of the grammar at once, and not by a parser that looks ahead.
"""

import sys
from functools import lru_cache
from typing import NamedTuple

from script_reader.derivations import Derivations
from script_reader.grammar import PRODUCTIONS
from script_reader.rules import Breach, breach_in, declarations_in
from script_reader.sizes import GREATEST_SIZE, size_of
from script_reader.tokens import NoToken, tokens_of

MODULE_FRONT = bytes.fromhex('0061736D')
GREATEST_LENGTH = 1048576
GREATEST_NESTING = 64
VALID = 'ok script'

sys.setrecursionlimit(100000)       # trees are walked to their depth
sys.set_int_max_str_digits(0)       # numbers may have any zeros in front


class Reading(NamedTuple):
    """What is to be said of a script, and what is found out on the way to it, as far as this comes."""

    said: str
    fault: NoToken | None = None
    tokens: list | None = None
    derivations: Derivations | None = None
    declarations: list | None = None
    breach: Breach | None = None


def is_script(data):
    """Whether these bytes are checked as a script."""
    return not data.startswith(MODULE_FRONT)


def answer(data):
    """What is to be said of these bytes as a script."""
    return read(data)[0]


@lru_cache(maxsize=64)
def read(data):
    """What is to be said of these bytes as a script, and its declarations where nothing is said against it."""
    reading = reading_of(data)
    return reading.said, reading.declarations if reading.said == VALID else None


def reading_of(data):
    """The reading of these bytes as a script."""
    if len(data) > GREATEST_LENGTH:
        return Reading('limit script')
    try:
        tokens = tokens_of(data)
    except NoToken as fault:
        return Reading(f'lex {fault}', fault)
    derivations = Derivations(PRODUCTIONS, 'script', [token.kind for token in tokens])
    wrong, deep = derivations.first_wrong, first_deep(tokens)
    if deep is not None and (wrong is None or deep < wrong):
        return Reading('deep', None, tokens, derivations)
    if wrong is not None:
        return Reading(f'parse {wrong}', None, tokens, derivations)
    declarations = declarations_in(derivations.tree(tokens))
    breach = breach_in(declarations)
    if breach is not None:
        said = f'rule {breach.declaration} {breach.rule}'
    else:
        said = VALID if size_of(declarations) <= GREATEST_SIZE else 'limit size'
    return Reading(said, None, tokens, derivations, declarations, breach)


def first_deep(tokens):
    """The number of the first token at which more parentheses and braces are open than may be; square brackets don't
    count."""
    opened = 0
    for number, token in enumerate(tokens):
        opened += token.kind in ('(', '{')
        if opened > GREATEST_NESTING:
            return number
        opened -= token.kind in (')', '}')
    return None
