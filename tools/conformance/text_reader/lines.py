"""What the lines say that aren't instructions. Each function reads the words of a line of its kind."""

from functools import partial

from reader.module_decoding import Active, Data, Element, Export, Global, Import, Table
from reader.types import ContType, FuncType, SubType
from text_reader.words import (
    WrongWord, bytes_, count, index, limits, name, positive, ref_type, value_type)

TYPES = ('func', 'cont', 'open', 'final')
EXPORT_KINDS = ['func', 'table', 'memory', 'global', 'tag']
MUTABLE = {'const': False, 'var': True}


def module(words):
    words.one_of(['module'])


def group(words):
    """How many types a recursive group has. One type stands alone."""
    words.one_of(['rec'])
    types = count(words)
    if types == 1:
        raise WrongWord
    return types


def sub_type(words):
    """A type: open or final behind its supertypes. Where it is final and has none it stands alone."""
    word = words.one_of(TYPES)
    if word == 'open':
        supertypes = words.up_to(':', index)
    elif word == 'final':
        supertypes = [index(words), *words.up_to(':', index)]
    else:
        return SubType(True, [], _composite(word, words))
    return SubType(word == 'final', supertypes, _composite(words.one_of(['func', 'cont']), words))


def _composite(word, words):
    """The function or continuation type behind this word."""
    if word == 'cont':
        return ContType(index(words))
    parameters = words.up_to('->', value_type)
    return FuncType(parameters, words.up_to_the_last(0, value_type))


def _mutable(words):
    return MUTABLE[words.one_of(MUTABLE)]


# What tells the type of an import, by its kind.
_EXTERN_TYPES = {
    'func': [index], 'table': [ref_type, limits], 'memory': [limits], 'global': [value_type, _mutable], 'tag': [index]}


def import_(words):
    words.one_of(['import'])
    module_name, item_name = name(words), name(words)
    kind = words.one_of(_EXTERN_TYPES)
    return Import(module_name, item_name, (kind, *(read(words) for read in _EXTERN_TYPES[kind])))


def table(words):
    """A table, and whether it has an initial expression, which stands behind the line."""
    words.one_of(['table'])
    found = Table(ref_type(words), limits(words), None)
    return found, bool(words.left() and words.one_of(['init']))


def memory(words):
    words.one_of(['memory'])
    return limits(words)


def _indexed(word, words):
    words.one_of([word])
    return index(words)


tag, start, function = (partial(_indexed, word) for word in ('tag', 'start', 'function'))


def global_(words):
    words.one_of(['global'])
    return Global(value_type(words), _mutable(words), [])


def export(words):
    words.one_of(['export'])
    export_name, kind = name(words), words.one_of(EXPORT_KINDS)
    return Export(export_name, EXPORT_KINDS.index(kind), index(words))


def element(words):
    """An element segment without its expressions, and how many items it has."""
    words.one_of(['elem'])
    mode = words.one_of(['active', 'passive', 'declare'])
    active = Active(index(words), []) if mode == 'active' else None
    return Element(ref_type(words), active, mode == 'declare', []), count(words)


def data(words):
    """A data segment without its expression."""
    words.one_of(['data'])
    mode = words.one_of(['active', 'passive'])
    active = Active(index(words), []) if mode == 'active' else None
    return Data(active, bytes_(words))


def locals_(last, end, words):
    """A run of locals, fewer than are told, and of another type than the last run has, where there is one."""
    words.one_of(['local'])
    number, local_type = positive(end, words), value_type(words)
    if last and last[-1][1] == local_type:
        raise WrongWord
    return number, local_type
