"""Reads a module from a text, line by line."""

from functools import partial

from reader.instructions import Instruction
from reader.module_decoding import Code, Module
from text_reader import lines as line
from text_reader.forms import BLOCKS, ELSE, END, IF
from text_reader.words import END_OF_INDICES, Words, WrongWord, instruction


class WrongLine(Exception):
    """The least line of a text with which no text goes on, by its number from 0."""

    def __init__(self, number):
        super().__init__(number)
        self.number = number


class Lines:
    """The lines of a text, which are read from the front. What stands behind the last end of a line is none."""

    def __init__(self, text):
        *self._lines, self._piece = text.decode('latin-1').split('\n')
        self._number = 0

    def word(self):
        """The first word of the next line, or nothing at the end."""
        if self._number < len(self._lines):
            return self._lines[self._number].split(' ', 1)[0]
        if self._piece:
            raise self.wrong()
        return None

    def read(self, read):
        """What a function reads of the words of the next line, which are to be all its words."""
        if self.word() is None:
            raise self.wrong()
        words = Words(self._lines[self._number])
        try:
            said = read(words)
            words.ended()
        except WrongWord:
            raise self.wrong() from None
        self._number += 1
        return said

    def wrong(self):
        """The fault of the next line, or of the end."""
        return WrongLine(self._number)


def module_of(text):
    """The module of a text, as it is decoded from the canonical bytes, but for the data count."""
    lines = Lines(text)
    lines.read(line.module)
    module = Module(
        groups=_each(lines, ('rec', *line.TYPES), _group), imports=_each(lines, ('import',), _plain(line.import_)),
        tables=_each(lines, ('table',), _table), memories=_each(lines, ('memory',), _plain(line.memory)),
        tags=_each(lines, ('tag',), _plain(line.tag)), globals=_each(lines, ('global',), _global),
        exports=_each(lines, ('export',), _plain(line.export)),
        start=lines.read(line.start) if lines.word() == 'start' else None,
        elements=_each(lines, ('elem',), _element), datas=_each(lines, ('data',), _data))
    functions = _each(lines, ('function',), _function)
    if lines.word() is not None:
        raise lines.wrong()
    module.functions = [function_type for function_type, _ in functions]
    module.codes = [code for _, code in functions]
    return module


def _each(lines, words, read):
    """What a function reads of the lines as long as they begin with one of these words."""
    things = []
    while lines.word() in words:
        things.append(read(lines))
    return things


def _plain(read):
    """What reads one line of a kind that has no expression."""
    return lambda lines: lines.read(read)


def _group(lines):
    if lines.word() != 'rec':
        return [lines.read(line.sub_type)]
    return _so_many(lines.read(line.group), partial(lines.read, line.sub_type))


def _so_many(count, read):
    things = []
    while len(things) < count:
        things.append(read())
    return things


def _table(lines):
    table, has_initial = lines.read(line.table)
    return table._replace(initial=_expression(lines)) if has_initial else table


def _global(lines):
    return lines.read(line.global_)._replace(initial=_expression(lines))


def _active(lines, segment):
    """A segment, with its offset where it has one."""
    if segment.active is None:
        return segment
    return segment._replace(active=segment.active._replace(offset=_expression(lines)))


def _element(lines):
    segment, count = lines.read(line.element)
    return _active(lines, segment)._replace(items=_so_many(count, partial(_expression, lines)))


def _data(lines):
    return _active(lines, lines.read(line.data))


def _function(lines):
    """The index of the type of a function, and its code."""
    function_type = lines.read(line.function)
    runs, left = [], END_OF_INDICES
    while lines.word() == 'local':
        runs.append(lines.read(partial(line.locals_, runs[-1:], left)))
        left -= runs[-1][0]
    return function_type, Code(runs, _expression(lines))


class _Open:
    """A sequence of instructions whose end is not read yet: of an expression, or of a block with this name."""

    def __init__(self, name=None, shape=None):
        self.name = name
        self.shape = shape
        self.sequences = [[]]       # two behind an else

    def may_go_on(self, word):
        """Whether a line may follow that begins with this word: an else stands in an if, and once."""
        return word != ELSE or (self.name == IF and len(self.sequences) == 1)

    def add(self, added):
        self.sequences[-1].append(added)

    def block(self):
        """The block, whose end is read."""
        if self.name != IF:
            return Instruction(self.name, (self.shape, *self.sequences))
        then, otherwise = [*self.sequences, None][:2]
        return Instruction(IF, (self.shape, then, otherwise))


def _expression(lines):
    """The instructions up to the end of an expression. Blocks may stand in one another to any depth."""
    around = []
    inner = _Open()
    while True:
        if not inner.may_go_on(lines.word()):
            raise lines.wrong()
        read = lines.read(instruction)
        if read.name == END:
            if not around:
                return inner.sequences[0]
            ended, inner = inner, around.pop()
            inner.add(ended.block())
        elif read.name == ELSE:
            inner.sequences.append([])
        elif read.name in (*BLOCKS, IF):
            around.append(inner)
            inner = _Open(read.name, *read.immediates)
        else:
            inner.add(read)
