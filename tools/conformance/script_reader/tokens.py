"""Tokens of scripts."""

import re
from typing import NamedTuple

KEYWORDS = (
    'effect fn handler return on let if else while print fail do handle with resume res slots store take group switch '
    'spawn coro').split()
SYMBOLS = '== != <= >= && || ( ) { } [ ] , ; : / = + - * % < > !'.split()
GREATEST_NUMBER = 9223372036854775807

_SEPARATOR = re.compile(rb'[ \t\n\r]+|#[^\n]*')
_WORD = re.compile(rb'[A-Za-z_][A-Za-z_0-9]*')
_NUMBER = re.compile(rb'[0-9]+')
_SYMBOL = re.compile(b'|'.join(re.escape(symbol.encode()) for symbol in sorted(SYMBOLS, key=len, reverse=True)))


class Token(NamedTuple):
    """A token: NAME, INT, or itself where it is a keyword or a symbol; its text, and the bytes that it takes."""

    kind: str
    text: str
    start: int
    end: int


class NoToken(Exception):
    """At this byte no token, separator or comment begins, for this reason."""

    def __init__(self, at, reason):
        super().__init__(at)
        self.at, self.reason = at, reason


def tokens_of(data):
    """The tokens of these bytes."""
    tokens, at = [], 0
    while at < len(data):
        separator = _SEPARATOR.match(data, at)
        if separator:
            at = separator.end()
            continue
        kind, end = _token_at(data, at)
        tokens.append(Token(kind, data[at:end].decode(), at, end))
        at = end
    return tokens


def _token_at(data, at):
    """The kind of the token at a byte, and where it ends."""
    if word := _WORD.match(data, at):
        text = word[0].decode()
        return (text if text in KEYWORDS else 'NAME'), word.end()
    if number := _NUMBER.match(data, at):
        if _WORD.match(data, number.end()):
            raise NoToken(at, 'a letter stands right behind this number')
        digits = number[0].lstrip(b'0')
        if len(digits) > len(str(GREATEST_NUMBER)) or int(digits or b'0') > GREATEST_NUMBER:
            raise NoToken(at, f'this number is above {GREATEST_NUMBER}')
        return 'INT', number.end()
    if symbol := _SYMBOL.match(data, at):
        return symbol[0].decode(), symbol.end()
    raise NoToken(at, 'no token begins with this byte')
