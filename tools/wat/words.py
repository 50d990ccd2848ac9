"""Words of a text, and what stands for them in .wat. A word of another kind is a ValueError."""

import re

NUMBER = re.compile('[0-9]+')
CONSTANT = re.compile('-?[0-9]+')
BYTES = re.compile('x([0-9a-f]*)')
HEAP_TYPES = ('func', 'nofunc', 'cont', 'nocont')
REFERENCES = {'ref': 'ref', 'null': 'ref null'}
ESCAPED = b'"\\'


def _spelled(pattern, word):
    if not pattern.fullmatch(word):
        raise ValueError(f'no word of its kind: {word}')
    return word


def number(word):
    """An index or another number that has no sign."""
    return _spelled(NUMBER, word)


def constant(word):
    """A number that may have a sign."""
    return _spelled(CONSTANT, word)


def heap_type(word):
    """A heap type, which may be the index of a type."""
    return word if word in HEAP_TYPES else number(word)


def ref_type(word):
    """A reference type: `ref:` or `null:` and a heap type."""
    kind, colon, heap = word.partition(':')
    if not colon or kind not in REFERENCES:
        raise ValueError(f'no reference type: {word}')
    return f'({REFERENCES[kind]} {heap_type(heap)})'


def value_type(word):
    """The type of a value."""
    return word if word in ('i32', 'i64') else ref_type(word)


def row_of_types(key, words):
    """Types behind `param`, `result` or `local`; nothing where there are none."""
    return f'({" ".join([key, *map(value_type, words)])})' if words else ''


def limits(least, greatest):
    """The limits of a table or a memory."""
    return number(least) if greatest == '-' else f'{number(least)} {number(greatest)}'


def string(word):
    """A name or bytes: signs of ASCII as they are, and all others by two digits each."""
    spelled = bytes.fromhex(_spelled(BYTES, word)[1:])
    return f'"{"".join(map(_sign, spelled))}"'


def _sign(byte):
    return chr(byte) if 0x20 <= byte < 0x7f and byte not in ESCAPED else f'\\{byte:02x}'
