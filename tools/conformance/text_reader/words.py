"""Reads the words of a line: numbers, types, bytes, and the immediates of instructions."""

import re
from functools import partial

from reader.instructions import Instruction
from reader.types import I32, I64, Limits, Ref
from text_reader.forms import FORMS, name_in_tree

NUMBER = re.compile('0|[1-9][0-9]*')
CONSTANT = re.compile('0|-?[1-9][0-9]*')
BYTES = re.compile('x(?:[0-9a-f][0-9a-f])*')
LONGEST = 20            # the characters of a number that may be in a range
END_OF_INDICES = 2 ** 32
END_OF_LIMITS = 2 ** 64
END_OF_ALIGNMENTS = 64
HEAP_TYPES = ('func', 'nofunc', 'cont', 'nocont')


class WrongWord(Exception):
    """A word that says nothing where it stands, or that is not there."""


class Words:
    """The words of a line, which are read from the front."""

    def __init__(self, line):
        self._words = line.split(' ')
        self._place = 0

    def left(self):
        """How many words are left."""
        return len(self._words) - self._place

    def peek(self):
        """The next word, which is not read by this, or nothing."""
        return self._words[self._place] if self.left() else None

    def word(self):
        """The next word."""
        if not self.left():
            raise WrongWord
        self._place += 1
        return self._words[self._place - 1]

    def one_of(self, words):
        """The next word, which is one of these."""
        word = self.word()
        if word not in words:
            raise WrongWord
        return word

    def up_to(self, mark, read):
        """What a function reads of the words in front of a mark, again and again. The mark is read too."""
        things = []
        while self.peek() != mark:
            things.append(read(self))
        self.word()
        return things

    def up_to_the_last(self, count, read):
        """What a function reads, again and again, until no more than so many words are left."""
        things = []
        while self.left() > count:
            things.append(read(self))
        return things

    def ended(self):
        """Refuse words that are left."""
        if self.left():
            raise WrongWord


def _in_range(pattern, first, end, word):
    """The number that a word of this pattern spells, from the first one on, and below the end."""
    if not pattern.fullmatch(word) or len(word) > LONGEST or not first <= int(word) < end:
        raise WrongWord
    return int(word)


_natural = partial(_in_range, NUMBER, 0)
_index = partial(_natural, END_OF_INDICES)


def index(words):
    return _index(words.word())


def count(words):
    """A count of a list, which has no range. One that no list of a file reaches is as good as any other."""
    word = words.word()
    if not NUMBER.fullmatch(word):
        raise WrongWord
    return int(word[:LONGEST])


def positive(end, words):
    """A number above 0 and below an end."""
    return _in_range(NUMBER, 1, end, words.word())


def _alignment(words):
    return _natural(END_OF_ALIGNMENTS, words.word())


def _offset(words):
    return _natural(END_OF_LIMITS, words.word())


def _constant(bits, words):
    return _in_range(CONSTANT, -(1 << (bits - 1)), 1 << (bits - 1), words.word())


def limits(words):
    least, greatest = _natural(END_OF_LIMITS, words.word()), words.word()
    return Limits(least, None if greatest == '-' else _natural(END_OF_LIMITS, greatest))


def bytes_(words):
    word = words.word()
    if not BYTES.fullmatch(word):
        raise WrongWord
    return bytes.fromhex(word[1:])


def name(words):
    """Bytes that are UTF-8."""
    spelling = bytes_(words)
    try:
        spelling.decode()
    except UnicodeDecodeError:
        raise WrongWord from None
    return spelling


def _heap_type(word):
    return word if word in HEAP_TYPES else _index(word)


def ref_type(words):
    return _ref_type(words.word())


def _ref_type(word):
    kind, _, heap = word.partition(':')
    if kind not in ('ref', 'null'):
        raise WrongWord
    return Ref(kind == 'null', _heap_type(heap))


def value_type(words):
    return _value_type(words.word())


def _value_type(word):
    return word if word in (I32, I64) else _ref_type(word)


def _shape(words):
    """The type of a block: none or one result, or the index of a type."""
    word = words.word()
    if word == 'void':
        return []
    kind, colon, number = word.partition(':')
    return _index(number) if kind + colon == 'type:' else [_value_type(word)]


def _clause(words):
    """A clause of resume: `on`, a tag and a label, or `switch` and a tag."""
    kind, *numbers = words.word().split(':')
    if (kind, len(numbers)) not in (('on', 2), ('switch', 1)):
        raise WrongWord
    return kind, *map(_index, numbers)


# What reads an immediate, by what `FORMS` says that it is.
IMMEDIATES = {
    'index': index, 'alignment': _alignment, 'offset': _offset, 'i32': partial(_constant, 32),
    'i64': partial(_constant, 64), 'heap': lambda words: _heap_type(words.word()), 'shape': _shape,
    'labels': lambda words: words.up_to_the_last(1, index), 'types': lambda words: words.up_to_the_last(0, value_type),
    'clauses': lambda words: words.up_to_the_last(0, _clause),
}


def instruction(words):
    """An instruction by its name and its immediates. A block has its type alone; `else` and `end` are instructions."""
    name_ = words.one_of(FORMS)
    return Instruction(name_in_tree(name_), tuple(IMMEDIATES[kind](words) for kind in FORMS[name_]))
