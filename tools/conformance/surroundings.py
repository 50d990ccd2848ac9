"""The module in which functions are judged.

Its types and tags are added when a row first asks for them, so their indices go by the order of the rows. Behind all
types stands that of the function that is judged.

Functions: 0 is imported, of FUNC_I32_TO_I64; 1 is of FUNC_EMPTY; 2 is the one that is judged; 3 is of FUNC_I32; 4 is of
FUNC_EMPTY, and no item outside of bodies names it. So the judged one is the second of those that the module defines.
"""

from functools import cache
from typing import NamedTuple

from assembler.encoding import indices, signed, unsigned, vector
from assembler.instructions import NOP, global_get, i64_const, local_get, ref_func, ref_null
from assembler.modules import (
    HEADER, SECTION_IDS, as_func, as_global, as_table, as_tag, code, export, global_, imported, section, table, tag)
from assembler.segments import (
    active_data, active_functions, declared_functions, passive_data, passive_expressions, passive_functions)
from assembler.types import (
    CONT, CONTREF, FUNC, FUNCREF, I32, I64, NOCONT, NOFUNC, NULLFUNCREF, conttype, functype, limits, nullable,
    rec_group, ref)


class TypeSection:
    """The recursive groups so far, and how many types they have."""

    def __init__(self):
        self.groups = []
        self.count = 0
        self._indices = {}

    def add(self, *members):
        """Add a group, and give the index of its first type."""
        first = self.count
        self.groups.append(members[0] if len(members) == 1 else rec_group(members))
        self.count += len(members)
        return first

    def index_of(self, comptype):
        """The index of a type that stands alone, which is added where there is none yet."""
        if comptype not in self._indices:
            self._indices[comptype] = self.add(comptype)
        return self._indices[comptype]


TYPES = TypeSection()
TAGS = []               # the indices of their types
CONTINUATIONS = {}      # the parameters and the results of continuation types, by index


def func_index(parameters, results):
    """The index of this function type."""
    return TYPES.index_of(functype(parameters, results))


def cont_index(parameters, results):
    """The index of the type of continuations of functions with these parameters and results."""
    index = TYPES.index_of(conttype(func_index(parameters, results)))
    CONTINUATIONS[index] = (parameters, results)
    return index


def block_type(parameters, results):
    """The block type of these parameters and results."""
    return signed(func_index(parameters, results))


def tag_index(parameters, results):
    """The index of a tag with these parameters and results, which is added where there is none yet."""
    function_type = func_index(parameters, results)
    if function_type not in TAGS:
        TAGS.append(function_type)
    return TAGS.index(function_type)


def _add_pair(*more):
    """Add a group of a function type that gives its own continuation, and the type of that; and of further ones."""
    first = TYPES.count
    return TYPES.add(functype([], [ref(first + 1)]), conttype(first), *more)


FUNC_EMPTY = func_index([], [])
FUNC_I32 = func_index([I32], [I32])
FUNC_I64 = func_index([I64], [I64])
FUNC_I32_I64 = func_index([I32, I64], [I64])
FUNC_I32_TO_I64 = func_index([I32], [I64])
CONT_EMPTY = cont_index([], [])
CONT_I32 = cont_index([I32], [I32])
CONT_I64 = cont_index([I64], [I64])
CONT_I32_I64 = cont_index([I32, I64], [I64])

# Equal to FUNC_I32 and to CONT_I32, at other indices.
SAME_FUNC_I32 = TYPES.add(functype([I32], [I32]))
SAME_CONT_I32 = TYPES.add(conttype(SAME_FUNC_I32))

# Rows of nine types, which the checker compares otherwise than short ones. The first two are equal, and match the
# third.
NINE = [ref(FUNC_I32)] * 9
SAME_NINE = [ref(SAME_FUNC_I32)] * 9
NINE_FUNCREFS = [FUNCREF] * 9

# Groups that begin with a function type and the type of its continuations: two equal ones, and two that have a third.
PAIR = _add_pair()
SAME_PAIR = _add_pair()
TRIPLE = _add_pair(functype([], []))
TWO_CONTINUATIONS = _add_pair(conttype(TYPES.count))

OUT_OF_RANGE = 100000       # an index that nothing has

TAG_I32_TO_I64 = tag_index([I32], [I64])        # the imported one
TAG_EMPTY = tag_index([], [])
TAG_TO_I32 = tag_index([], [I32])
TAG_I32_I64 = tag_index([I32, I64], [])

# The types of the tables, and what rows call these.
TABLES = [FUNCREF, nullable(FUNC_I32), CONTREF, NULLFUNCREF, ref(FUNC_EMPTY)]
TABLE_NAMES = ['funcref', 'typed', 'contref', 'nullfuncref', 'not-null']

# What rows call the element segments, which hold (ref func) thrice, FUNC_I32, contref and nullfuncref.
ELEMENT_NAMES = ['functions', 'active', 'declarative', 'typed', 'contref', 'nullfuncref']

# The types of the globals, and whether they may be set.
GLOBALS = [
    (I32, False), (I64, True), (I64, False), (I32, True), (FUNCREF, True), (ref(FUNC_I32), False), (CONTREF, True)]

CODES_IN_FRONT = unsigned(4) + code(NOP)
CODES_BEHIND = code(local_get(0)) + code(b'')


class Surroundings(NamedTuple):
    """The bytes around the judged function, in the order in which they stand."""

    types: bytes        # how many groups, and all but the last, which is the type of the function
    items: bytes        # the sections between the types and the codes
    data: bytes         # the section of data segments


def _global_section():
    initials = [i64_const(-1), global_get(0), ref_null(FUNC), ref_func(3), ref_null(NOCONT)]
    defined = GLOBALS[2:]
    return vector([
        global_(value_type, initial, mutable)
        for (value_type, mutable), initial in zip(defined, initials, strict=True)])


def _table_section():
    return vector([
        table(TABLES[1], limits(0, 5)), table(TABLES[2], limits(2)), table(TABLES[3], limits(0)),
        table(TABLES[4], limits(1, 1), ref_func(1))])


def _item_sections():
    judged = TYPES.count
    return b''.join([
        section('imports', vector([
            imported(as_func(FUNC_I32_TO_I64), 'f'), imported(as_table(TABLES[0], limits(1, 10)), 't'),
            imported(as_global(*GLOBALS[0]), 'g'), imported(as_global(*GLOBALS[1]), 'v'),
            imported(as_tag(TAGS[0]), 'e')])),
        section('functions', indices([FUNC_EMPTY, judged, FUNC_I32, FUNC_EMPTY])),
        section('tables', _table_section()),
        section('memories', vector([limits(1, 2)])),
        section('tags', vector([tag(function_type) for function_type in TAGS[1:]])),
        section('globals', _global_section()),
        section('exports', vector([
            export('f', 'func', 0), export('t', 'table', 0), export('m', 'memory', 0), export('g', 'global', 3),
            export('e', 'tag', 0)])),
        section('start', unsigned(1)),
        section('elements', vector([
            passive_functions([0, 1]), active_functions([1]), declared_functions([3]),
            passive_expressions(nullable(FUNC_I32), [ref_null(FUNC_I32), ref_func(3)]),
            passive_expressions(CONTREF, [ref_null(CONT)]),
            passive_expressions(NULLFUNCREF, [ref_null(NOFUNC)])])),
        section('data_count', unsigned(2))])


@cache
def surroundings():
    """What stands around the judged function. All rows must have been made before."""
    return Surroundings(
        types=unsigned(len(TYPES.groups) + 1) + b''.join(TYPES.groups),
        items=_item_sections(),
        data=section('datas', vector([passive_data('abc'), active_data('de')])))


def pieces():
    """The pieces that spell the module around the judged function, each with its name."""
    around = surroundings()
    parts = [
        ('header', HEADER), ('types', around.types), ('items', around.items), ('codes_in_front', CODES_IN_FRONT),
        ('codes_behind', CODES_BEHIND), ('segments', around.data)]
    return [(piece, spelling.hex().upper()) for piece, spelling in parts]


def words_with(function_type, code_contents):
    """The words that spell the module in which the judged function has this type, and this code, which is given without
    its size."""
    size = unsigned(len(code_contents))
    types = _section_front('types', len(surroundings().types) + len(function_type))
    codes = _section_front('codes', len(CODES_IN_FRONT + size + code_contents + CODES_BEHIND))
    return (
        f'@header {types} @types {function_type.hex().upper()} @items {codes} @codes_in_front '
        f'{(size + code_contents).hex().upper()} @codes_behind @segments')


def _section_front(kind, size):
    """What stands in front of a section of this size."""
    return (bytes([SECTION_IDS[kind]]) + unsigned(size)).hex().upper()
