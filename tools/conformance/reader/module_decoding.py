"""Reads a module from bytes."""

import os
from dataclasses import dataclass, field
from typing import NamedTuple

from reader.byte_source import ByteSource, Malformed
from reader.instructions import Instruction, all_instructions, expression
from reader.type_decoding import (
    extern_type, index, limits, mutability, rec_group, ref_type, tag_type, value_type)
from reader.types import FUNCREF, Limits, Ref

HEADER = b'\x00asm\x01\x00\x00\x00'
GREATEST_KIND = 4       # of exports


class Section(NamedTuple):
    """A section: its number from 0, its id, and the byte with which it begins."""

    number: int
    id: int
    start: int


class Import(NamedTuple):
    """An import: the names of a module and of an item, and its type, whose kind stands in front."""

    module: bytes
    item: bytes
    type: tuple


class Table(NamedTuple):
    """A table, with its initial expression where there is one."""

    type: Ref
    limits: Limits
    initial: list | None


class Global(NamedTuple):
    """A global."""

    type: object
    mutable: bool
    initial: list


class Export(NamedTuple):
    """An export, with its kind as a number."""

    name: bytes
    kind: int
    index: int


class Active(NamedTuple):
    """Where an active segment goes: the index of a table or of a memory, and the offset."""

    index: int
    offset: list


class Element(NamedTuple):
    """An element segment. Its items are expressions."""

    type: Ref
    active: Active | None
    declarative: bool
    items: list


class Data(NamedTuple):
    """A data segment."""

    active: Active | None
    bytes: bytes


class Code(NamedTuple):
    """The locals of a function in runs of one type, each as a count and the type, and its instructions."""

    runs: list
    body: list


@dataclass
class Module:
    """A module. Functions and tags stand for the indices of their types."""

    groups: list = field(default_factory=list)
    imports: list = field(default_factory=list)
    functions: list = field(default_factory=list)
    tables: list = field(default_factory=list)
    memories: list = field(default_factory=list)
    tags: list = field(default_factory=list)
    globals: list = field(default_factory=list)
    exports: list = field(default_factory=list)
    start: int | None = None
    elements: list = field(default_factory=list)
    data_count: int | None = None
    codes: list = field(default_factory=list)
    datas: list = field(default_factory=list)

    @property
    def sub_types(self):
        """The types through all groups."""
        return [sub_type for group in self.groups for sub_type in group]

    @property
    def types(self):
        """The function and continuation types that they are."""
        return [sub_type.composite for sub_type in self.sub_types]


def _import(source):
    return Import(source.name(), source.name(), extern_type(source))


def _table(source):
    if source.peek() == 0x40:
        source.byte()
        if source.byte():
            raise source.wrong('00, behind the 40 of a table with an initial expression')
        return Table(ref_type(source), limits(source), expression(source))
    return Table(ref_type(source), limits(source), None)


def _global(source):
    return Global(value_type(source), mutability(source), expression(source))


def _export(source):
    name, kind, place = source.name(), source.byte(), source.position
    export = Export(name, kind, index(source))
    if kind > GREATEST_KIND:
        raise Malformed(place - 1, 'a kind of export: 00 function, 01 table, 02 memory, 03 global or 04 tag')
    return export


def _element(source):
    start = source.position
    flag = index(source)
    if flag > 7:
        raise Malformed(start, f'the flag of an element segment, from 0 to 7; this one is {flag}')
    active = None
    if not flag & 1:
        active = Active(index(source) if flag & 2 else 0, expression(source))
    declarative = flag & 3 == 3
    tells_type = flag & 3
    if flag & 4:
        segment_type = ref_type(source) if tells_type else FUNCREF
        return Element(segment_type, active, declarative, source.vector(expression))
    if tells_type and source.byte():
        raise source.wrong('00, behind which functions are listed')
    items = [[Instruction('ref.func', (function,))] for function in source.vector(index)]
    return Element(Ref(False, 'func'), active, declarative, items)


def _data(source):
    start = source.position
    flag = index(source)
    if flag > 2:
        raise Malformed(start, f'the flag of a data segment, from 0 to 2; this one is {flag}')
    active = None
    if flag != 1:
        active = Active(index(source) if flag == 2 else 0, expression(source))
    return Data(active, source.bytes())


def _run(source):
    return index(source), value_type(source)


def _code(source):
    return read_code(source.part('a body'))


def read_code(source):
    """The code of a function, which takes up the whole source."""
    start = source.position
    runs = source.vector(_run)
    count = sum(count for count, _ in runs)
    if count >= 2 ** 32:
        raise Malformed(start, f'locals, fewer than 2^32 together; here there are {count}')
    body = expression(source)
    source.ended('a body, whose last instruction is read')
    return Code(runs, body)


def _vector(read):
    return lambda source: source.vector(read)


# The sections by id, in the order in which they may stand: the field of the module, and what reads it.
SECTIONS = {
    1: ('groups', _vector(rec_group)), 2: ('imports', _vector(_import)), 3: ('functions', _vector(index)),
    4: ('tables', _vector(_table)), 5: ('memories', _vector(limits)), 13: ('tags', _vector(tag_type)),
    6: ('globals', _vector(_global)), 7: ('exports', _vector(_export)), 8: ('start', index),
    9: ('elements', _vector(_element)), 12: ('data_count', index), 10: ('codes', _vector(_code)),
    11: ('datas', _vector(_data)),
}
ORDER = list(SECTIONS)
CUSTOM = 0


def decode(data):
    """The module that the bytes spell.

    A fault tells the first section, counted from 0, that is not framed in its place, or whose contents say nothing.
    """
    if not data.startswith(HEADER):
        alike = len(os.path.commonprefix([data, HEADER]))
        raise Malformed(alike, f'the header of a module, {HEADER.hex(" ").upper()}', 'header')
    module = Module()
    source = ByteSource(data, len(HEADER))
    last = -1
    number = 0
    while source.position < source.end:
        place = Section(number, source.peek(), source.position)
        section, last, contents = _told('frame', place, _frame, source, last)
        _told('content', place, _read_contents, module, section, contents)
        number += 1
    _check_counts(module, source)
    return module


def _told(part, place, read, *arguments):
    """What is read, or the fault that this part of this section has."""
    try:
        return read(*arguments)
    except Malformed as fault:
        raise Malformed(fault.at, fault.wanted, f'{part} {place.number}', place, fault.entry) from None


def _frame(source, last):
    """A section that may stand behind the last one: its id, what is the last place from now on, and its contents."""
    section = source.byte()
    if section == CUSTOM:
        return section, last, source.part('the section')
    if section not in ORDER:
        raise source.wrong('the id of a section: 00 to 0D')
    if ORDER.index(section) <= last:
        raise source.wrong('the id of a section that may stand here; each stands once, in their order')
    return section, ORDER.index(section), source.part('the section')


def _read_contents(module, section, contents):
    """Read the contents of a section into the module."""
    if section == CUSTOM:
        contents.name()
        return
    name, read = SECTIONS[section]
    setattr(module, name, read(contents))
    contents.ended('the section, which is read')


def _check_counts(module, source):
    """Refuse a module whose sections tell unlike numbers of the same things."""
    functions, codes, segments = len(module.functions), len(module.codes), len(module.datas)
    if functions != codes:
        wanted = f'as many bodies as functions; the functions are {functions}, the bodies {codes}'
        raise Malformed(source.end, wanted, 'counts')
    if module.data_count is None:
        named = _that_name_data(module)
        if named:
            raise Malformed(source.end, f'a data count, since a body has {min(named)}', 'counts')
    elif module.data_count != segments:
        wanted = f'as many data segments as the data count tells, {module.data_count}; there are {segments}'
        raise Malformed(source.end, wanted, 'counts')


def names_data(module):
    """Whether a body of the module names a data segment, so that there is to be a data count."""
    return bool(_that_name_data(module))


def _that_name_data(module):
    """The names of the instructions in bodies that name data segments."""
    instructions = (each for code in module.codes for each in all_instructions(code.body))
    return {each.name for each in instructions} & {'memory.init', 'data.drop'}
