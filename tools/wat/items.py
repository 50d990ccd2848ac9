"""Items of a text, line by line, and what stands for them in .wat."""

import re
from collections import Counter

from instructions import ELSE, END, OPENING, instruction
from lines import Lines
from words import limits, number, ref_type, row_of_types, string, value_type

DEEPEST = 20        # the blocks for which lines are indented
FUNCTION = re.compile(r'\(ref\.func ([0-9]+)\)')


def module(text):
    """The module of a text as .wat."""
    return ''.join(f'{line}\n' for line in ['(module', *_Items(Lines(text)).told(), ')'])


class _Items:
    """The items of a module. Each gives its lines, and has its index behind its name, as a comment."""

    def __init__(self, lines):
        self._lines = lines
        self._counts = Counter()

    def told(self):
        """The lines of all items."""
        self._lines.read(_only('module'))
        while (word := self._lines.first()) is not None:
            if word not in _ITEMS:
                raise self._lines.unread()
            yield from _ITEMS[word](self)

    def _named(self, kind):
        """The name of a kind of items, and the index that the next one has."""
        self._counts[kind] += 1
        return f'{kind} (;{self._counts[kind] - 1};)'

    def _type(self, indent='  '):
        yield f'{indent}({self._named("type")} {self._lines.read(_sub_type)})'

    def _group(self):
        count = self._lines.read(lambda _word, count: int(number(count)))
        yield '  (rec'
        for _ in range(count):
            yield from self._type('    ')
        yield '  )'

    def _import(self):
        names, kind, described = self._lines.read(_import)
        yield f'  (import {names} ({self._named(kind)} {described}))'

    def _plain(self):
        """A memory or a tag."""
        kind, described = self._lines.read(lambda kind, *words: (kind, _DESCRIBED[kind](*words)))
        yield f'  ({self._named(kind)} {described})'

    def _table(self):
        described, has_initial = self._lines.read(_table)
        initial = f' {self._expression()}' if has_initial else ''
        yield f'  ({self._named("table")} {described}{initial})'

    def _global(self):
        described = self._lines.read(lambda _word, *words: _DESCRIBED['global'](*words))
        yield f'  ({self._named("global")} {described} {self._expression()})'

    def _export(self):
        yield self._lines.read(_export)

    def _start(self):
        yield self._lines.read(lambda _word, index: f'  (start {number(index)})')

    def _element(self):
        place, mode, items_type, count = self._lines.read(_element)
        front = ' '.join(filter(None, [self._named('elem'), mode, self._place('table', place)]))
        items = [self._expression() for _ in range(count)]
        yield f'  ({front} {_listed(items_type, items)})'

    def _data(self):
        place, contents = self._lines.read(_data)
        front = ' '.join(filter(None, [self._named('data'), self._place('memory', place)]))
        yield f'  ({front} {contents})'

    def _place(self, kind, index):
        """Where a segment goes that is active, whose expression is read."""
        return '' if index is None else f'({kind} {index}) (offset {self._expression()})'

    def _function(self):
        described = self._lines.read(lambda _word, index: f'(type {number(index)})')
        yield f'  ({self._named("func")} {described}'
        while self._lines.first() == 'local':
            yield f'    {self._lines.read(_locals)}'
        for depth, each in self._instructions():
            yield f'    {"  " * min(depth, DEEPEST)}{each}'
        yield '  )'

    def _expression(self):
        """A constant expression, which has no blocks, on one line. Each instruction stands in brackets."""
        return ' '.join(f'({each})' for _, each in self._instructions())

    def _instructions(self):
        """The instructions up to the end of an expression, each with the number of blocks in which it stands."""
        depth = 0
        while True:
            if self._lines.first() == ELSE and not depth:
                raise self._lines.unread()
            name, told = self._lines.read(instruction)
            depth -= name in (ELSE, END)
            if depth < 0:
                return
            yield depth, told
            depth += name == ELSE or name in OPENING


_ITEMS = {
    **dict.fromkeys(['func', 'cont', 'open', 'final'], _Items._type), 'rec': _Items._group, 'import': _Items._import,
    'table': _Items._table, 'memory': _Items._plain, 'tag': _Items._plain, 'global': _Items._global,
    'export': _Items._export, 'start': _Items._start, 'elem': _Items._element, 'data': _Items._data,
    'function': _Items._function,
}


def _only(wanted):
    """What reads a line of this word alone."""
    def read(word):
        if word != wanted:
            raise ValueError(f'{word}, and not {wanted}')
    return read


def _sub_type(*words):
    """A type; `open` or `final` and supertypes may stand in front."""
    if words[0] not in ('open', 'final'):
        return _composite(*words)
    colon = words.index(':')
    front = ['sub', *(['final'] if words[0] == 'final' else []), *map(number, words[1:colon])]
    return f'({" ".join(front)} {_composite(*words[colon + 1:])})'


def _composite(kind, *words):
    """A function type, or that of the continuations of one."""
    if kind == 'cont':
        (index,) = words
        return f'(cont {number(index)})'
    _only('func')(kind)
    arrow = words.index('->')
    rows = [row_of_types('param', words[:arrow]), row_of_types('result', words[arrow + 1:])]
    return f'({" ".join(filter(None, ["func", *rows]))})'


def _global_type(value, kept):
    return {'const': '{}', 'var': '(mut {})'}[kept].format(value_type(value))


def _table_type(ref, least, greatest):
    return f'{limits(least, greatest)} {ref_type(ref)}'


def _of_type(index):
    return f'(type {number(index)})'


# What is told of an import, a table, a memory, a global or a tag behind the name of its kind.
_DESCRIBED = {'func': _of_type, 'tag': _of_type, 'table': _table_type, 'memory': limits, 'global': _global_type}


def _import(_word, module_name, name, kind, *words):
    return f'{string(module_name)} {string(name)}', kind, _DESCRIBED[kind](*words)


def _table(_word, ref, least, greatest, *more):
    """A table, and whether its expression follows."""
    for word in more:
        _only('init')(word)
    return _table_type(ref, least, greatest), bool(more)


def _export(_word, name, kind, index):
    if kind not in _DESCRIBED:
        raise ValueError(f'no kind: {kind}')
    return f'  (export {string(name)} ({kind} {number(index)}))'


def _element(_word, mode, *words):
    """The index of the table of an element segment, the word of its mode, its type, and how many items it has."""
    *place, items_type, count = words
    index = _place_of(mode, place, 'declare')
    return index, mode if mode == 'declare' else '', ref_type(items_type), int(number(count))


def _data(_word, mode, *words):
    """The index of the memory of a data segment, and its contents."""
    *place, contents = words
    return _place_of(mode, place), string(contents)


def _place_of(mode, place, *others):
    """The index of a table or of a memory, of an active segment alone."""
    if mode == 'active':
        (index,) = place
        return number(index)
    if mode not in ('passive', *others) or place:
        raise ValueError(f'no mode: {mode}')
    return None


def _listed(items_type, items):
    """The items of an element segment, as a list of functions where they are one."""
    functions = [FUNCTION.fullmatch(item) for item in items]
    if items_type == '(ref func)' and all(functions):
        return ' '.join(['func', *(function[1] for function in functions)])
    return ' '.join([items_type, *(f'(item {item})' for item in items)])


def _locals(_word, count, local_type):
    return row_of_types('local', [local_type] * int(number(count)))
