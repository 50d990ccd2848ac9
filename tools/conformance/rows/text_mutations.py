"""Right texts of which one line is made wrong, in many ways. Where this is so is known by the place of the line.

A line is given by its words, and behind an @ stands what a word is: one of the kinds of `_WRONG`, with a star in a list
that may have fewer or more words, and with a plus where it may have more but not fewer. Words that might stand for
their neighbours are of one kind.
"""

from typing import NamedTuple

END_OF_32, END_OF_64 = 2 ** 32, 2 ** 64


class Sample(NamedTuple):
    """A right text: its lines in front of the one that is made wrong, the words of this one, and the lines behind."""

    name: str
    front: list
    words: list
    kinds: list
    behind: list


def sample(name, front, line, behind=''):
    """A sample, whose lines in front and behind are told with semicolons between."""
    pairs = [word.partition('@') for word in line.split(' ')]
    words, kinds = [word for word, _, _ in pairs], [kind for _, _, kind in pairs]
    return Sample(name, _lines(front), words, kinds, _lines(behind))


def _lines(told):
    return told.split('; ') if told else []


def right_text(given):
    """The lines of the text of a sample."""
    return [*given.front, ' '.join(given.words), *given.behind]


def wrong_texts(given):
    """Wrong texts, each by its name, its least wrong line, and its lines as a list or its bytes."""
    place = len(given.front)
    for name, line in _wrong_lines(given):
        yield name, place, [*given.front, line, *given.behind]
    line = ' '.join(given.words)
    yield 'an-empty-line-in-front', place, [*given.front, '', line, *given.behind]
    yield 'without-its-end', place, '\n'.join([*given.front, line]).encode()
    if given.behind:
        yield 'joined-with-the-next', place, [*given.front, f'{line} {given.behind[0]}', *given.behind[1:]]


def _wrong_lines(given):
    """Lines that are wrong in the place of the one that is right."""
    words = given.words
    line = ' '.join(words)
    yield from _with_other_words(given)
    yield 'blank-in-front', f' {line}'
    yield 'blank-behind', f'{line} '
    yield 'carriage-return-behind', f'{line}\r'
    yield 'without-its-last-letter', ' '.join([words[0][:-1], *words[1:]])
    if len(words) > 1:
        yield 'two-blanks', '  '.join([words[0], ' '.join(words[1:])])
        yield 'tab', '\t'.join([' '.join(words[:-1]), words[-1]])
    else:
        yield 'tab', f'{line}\t'
    for number, (word, kind) in enumerate(zip(words, given.kinds)):
        for name, other in _WRONG.get(_kind(kind), lambda word: [])(word):
            yield f'word-{number}/{name}', ' '.join([*words[:number], other, *words[number + 1:]])


def _with_other_words(given):
    """Lines with a word left out, with one doubled, and with neighbours exchanged, but for those that are right."""
    words, kinds = given.words, given.kinds
    for number, kind in enumerate(kinds):
        if not kind.endswith('*') and kind != 'init':
            yield f'without-word-{number}', ' '.join(words[:number] + words[number + 1:])
        if not kind.endswith(('*', '+')):
            yield f'with-word-{number}-twice', ' '.join(words[:number + 1] + words[number:])
    for number in range(len(words) - 1):
        if not _may_change_places(words[number:number + 2], kinds[number:number + 2]):
            left, right = words[number:number + 2]
            yield f'word-{number}-behind-the-next', ' '.join([*words[:number], right, left, *words[number + 2:]])


def _kind(kind):
    return kind.rstrip('*+')


def _may_change_places(words, kinds):
    """Whether neighbours are of one kind, or one is the arrow beside types of a list."""
    left, right = (_kind(kind).split('/')[0] for kind in kinds)
    if '->' in words:
        return 'type' in (left, right)
    return bool(left) and left == right


# Words that are wrong in the place of one that is right, each by a name.


def _number(end):
    """What is wrong for a number below an end, or for one without an end."""
    def wrong(word):
        found = [('a-zero-in-front', f'0{word}')]
        return found + [('past-its-range', str(end))] if end else found
    return wrong


def _any_number(end):
    """The same, and numbers in other spellings."""
    return lambda word: _number(end)(word) + [
        ('a-plus', f'+{word}'), ('a-minus', f'-{word}'), ('hexadecimal', f'0x{word}'), ('a-letter-behind', f'{word}a'),
        ('a-point', f'{word}.0'), ('an-underscore', f'{word}_0'), ('in-quotes', f'"{word}"')]


def _group(word):
    return [*_any_number(None)(word), ('one', '1')]


def _locals(word):
    return [*_number(END_OF_32)(word), ('zero', '0')]


def _constant(bits):
    """What is wrong for a constant."""
    end = 1 << (bits - 1)
    return lambda word: [
        ('a-zero-in-front', '07'), ('a-zero-in-front-of-a-negative-one', '-07'), ('two-zeros', '00'),
        ('minus-zero', '-0'), ('a-plus', '+7'), ('hexadecimal', '0x7'), ('two-signs', '--7'), ('a-sign-alone', '-'),
        ('past-the-greatest', str(end)), ('past-the-least', str(-end - 1)), ('unsigned', str(2 * end - 1))]


def _bytes(word):
    return [('in-capitals', 'x6D'), ('an-odd-digit', f'{word}6')]


def _any_bytes(word):
    return [
        *_bytes(word), ('without-its-x', word[1:]), ('no-digit', 'x6g'), ('a-capital-x', f'X{word[1:]}'),
        ('a-string', '"m"')]


def _any_name(word):
    return [
        *_any_bytes(word), ('a-byte-that-is-not-utf-8', 'xff'), ('half-a-sign', 'xc3'),
        ('a-spelling-too-long', 'xc080'), ('a-surrogate', 'xeda080'), ('past-the-last-sign', 'xf4908080')]


def _type(_word):
    return [('a-float', 'f32'), ('an-index-past-its-range', 'ref:4294967296'), ('a-zero-in-front', 'null:00')]


def _any_type(word):
    return [
        *_type(word), ('in-capitals', 'I32'), ('no-heap-type', 'ref:'), ('no-colon', 'ref'), ('void', 'void'),
        ('another-heap-type', 'null:any'), ('a-negative-index', 'ref:-1'), ('another-word', 'funcref'),
        ('more-behind', 'ref:func:'), ('a-heap-type-alone', 'func')]


def _ref(word):
    return [*_type(word), ('a-number', 'i32'), ('a-heap-type-alone', 'func')]


def _heap(_word):
    return [('past-its-range', str(END_OF_32)), ('a-zero-in-front', '00'), ('a-negative-index', '-1'),
            ('a-type', 'null:func'), ('another-heap-type', 'any'), ('a-number', 'i32')]


def _shape(_word):
    return [('past-its-range', f'type:{END_OF_32}'), ('a-zero-in-front', 'type:00')]


def _any_shape(word):
    return [
        *_shape(word), ('no-index', 'type:'), ('a-negative-index', 'type:-1'), ('a-heap-type', 'type:func'),
        ('an-index-alone', '0'), ('no-heap-type', 'ref:'), ('another-word', 'empty'), ('a-float', 'f64'),
        ('an-index-of-a-reference-past-its-range', f'ref:{END_OF_32}')]


def _clause(_word):
    return [('a-tag-past-its-range', f'on:{END_OF_32}:0'), ('a-label-past-its-range', f'on:0:{END_OF_32}'),
            ('a-zero-in-front-of-a-tag', 'on:00:0'), ('a-zero-in-front-of-a-label', 'on:0:00'), ('no-label', 'on:0'),
            ('an-empty-label', 'on:0:'), ('three-numbers', 'on:0:0:0'), ('no-colon', 'on'),
            ('another-word', 'off:0:0')]


def _switch(_word):
    return [('no-tag', 'switch:'), ('a-label', 'switch:0:0'), ('past-its-range', f'switch:{END_OF_32}'),
            ('a-zero-in-front', 'switch:00'), ('no-colon', 'switch')]


def _others(*words):
    return lambda word: [(f'as-{other}', other) for other in words]


_WRONG = {
    'index': _number(END_OF_32), 'index/any': _any_number(END_OF_32), 'limit': _number(END_OF_64),
    'limit/any': _any_number(END_OF_64), 'count': _number(None), 'count/any': _any_number(None), 'group': _group,
    'locals': _locals, 'none': _others('--', 'none'), 'alignment': _number(64), 'offset': _number(END_OF_64),
    'i32': _constant(32), 'i64': _constant(64), 'name': _bytes, 'name/any': _any_name, 'bytes': _bytes,
    'bytes/any': _any_bytes, 'type': _type, 'type/any': _any_type, 'ref': _ref, 'heap': _heap, 'shape': _shape,
    'shape/any': _any_shape, 'clause/on': _clause, 'clause/switch': _switch,
    'kind': _others('function'), 'mutability': _others('mut'),
}
