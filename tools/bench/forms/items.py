"""Modules of items other than functions: globals, segments, types, imports, exports and custom sections."""

from itertools import count, cycle, islice
from random import Random

from assembler.encoding import name, unsigned, vector
from assembler.instructions import I32_ADD, global_get, i32_const, i64_const, ref_func, ref_null
from assembler.modules import HEADER, as_func, as_global, code, export, global_, imported, module
from assembler.segments import (
    active_data, declared_functions, passive_data, passive_expressions, passive_functions)
from assembler.types import (
    FUNC, FUNCREF, I32, I64, NOFUNC, conttype, functype, limits, nullable, rec_group, ref)
from filling import FRAMING, drawn, pieces_within

NOTHING = functype([], [])
FUNCTIONS = 1000        # what references name: their indices have one byte or two
MOST_TYPES = 10000
MOST_PARAMETERS = 1000


def _module_of_items(size, kind, items, **others):
    """A module whose section of this kind has as many items as fit."""
    room = size - len(module(**others)) - FRAMING
    return module(**{kind: pieces_within(room, items)}, **others)


def _with_functions(size, kind, items, **others):
    """The same in a module that has functions to name."""
    return _module_of_items(
        size, kind, items, types=[NOTHING], functions=[0] * FUNCTIONS, codes=[code(b'')] * FUNCTIONS, **others)


def _drawn_function(random):
    return ref_func(random.randrange(FUNCTIONS))


def globals_of_numbers(size):
    """Globals of constants of both types."""
    random = Random(30)

    def item():
        bits = random.randint(1, 31)
        if random.random() < 0.5:
            return global_(I32, i32_const(random.getrandbits(bits)), random.random() < 0.5)
        return global_(I64, i64_const(random.getrandbits(2 * bits)), random.random() < 0.5)

    return _module_of_items(size, 'globals', drawn(item, 5000))


def globals_of_references(size):
    """Globals of `ref.null` and `ref.func`."""
    random = Random(31)

    def item():
        if random.random() < 0.5:
            return global_(FUNCREF, ref_null(random.choice([FUNC, NOFUNC, 0])))
        return global_(random.choice([FUNCREF, ref(0), nullable(0)]), _drawn_function(random))

    return _with_functions(size, 'globals', drawn(item, 5000))


def globals_of_globals(size):
    """Globals that are sums of the one before and a number."""
    rows = (global_(I32, (global_get(place - 1) if place else i32_const(0)) + i32_const(1) + I32_ADD)
            for place in count())
    return _module_of_items(size, 'globals', rows)


def elements_by_index(size):
    """One element segment of functions by their indices."""
    random = Random(32)
    return _one_segment(size, b'\x01\x00', drawn(lambda: unsigned(random.randrange(FUNCTIONS)), 5000))


def elements_by_expression(size):
    """One element segment of `ref.func x` and `ref.null func`."""
    random = Random(33)
    return _one_segment(size, b'\x05' + FUNCREF, drawn(lambda: _element(random), 5000))


def _element(random):
    return (_drawn_function(random) if random.random() < 0.5 else ref_null(FUNC)) + b'\x0b'


def _one_segment(size, front, items):
    others = {'types': [NOTHING], 'functions': [0] * FUNCTIONS, 'codes': [code(b'')] * FUNCTIONS}
    room = size - len(module(**others)) - FRAMING
    return module(elements=[front + vector(pieces_within(room, items))], **others)


def many_element_segments(size):
    """Element segments of a few items each, by index and by expression."""
    random = Random(34)

    def item():
        functions = [random.randrange(FUNCTIONS) for _ in range(random.randint(0, 5))]
        expressions = [ref_func(function) for function in functions]
        return random.choice([
            passive_functions(functions), declared_functions(functions), passive_expressions(FUNCREF, expressions)])

    return _with_functions(size, 'elements', drawn(item, 5000))


def one_data_segment(size):
    """One data segment of the whole size, of letters."""
    return module(memories=[limits(1000)], datas=[active_data('stackwasm' * ((size - 2 * FRAMING) // 9))])


def many_data_segments(size):
    """Data segments of a few bytes each."""
    random = Random(35)

    def item():
        text = 'x' * random.randint(0, 12)
        return active_data(text, i32_const(random.getrandbits(16))) if random.random() < 0.5 else passive_data(text)

    return _module_of_items(size, 'datas', drawn(item, 5000), memories=[limits(1)])


def one_custom_section(size):
    """One custom section of the whole size."""
    contents = name('custom') + bytes(size - len(HEADER) - FRAMING)
    return HEADER + b'\x00' + unsigned(len(contents)) + contents


def many_custom_sections(size):
    """Custom sections of a few bytes each."""
    random = Random(36)

    def section():
        contents = name('x' * random.randint(0, 8)) + bytes(random.randint(0, 8))
        return b'\x00' + unsigned(len(contents)) + contents

    return HEADER + b''.join(pieces_within(size - len(HEADER), drawn(section, 5000)))


def _types_of_size(size, type_of_width):
    """As many types as a module may have, each of as many bytes as then make the size, within what a type may have."""
    width = min(MOST_PARAMETERS, (size - FRAMING) // MOST_TYPES // 2 - 4)
    return _module_of_items(size, 'types', islice((type_of_width(place, width) for place in count()), MOST_TYPES))


def distinct_types(size):
    """Function types, each other than all before."""
    random = Random(37)

    def type_of(place, width):
        row = random.choices([I32, I64], k=2 * width)
        return functype(row[:width], row[width:])

    return _types_of_size(size, type_of)


def equal_types(size):
    """Function types that are all equal."""
    return _types_of_size(size, lambda place, width: functype([I32] * width, [I64] * width))


def types_that_differ_at_the_end(size):
    """Function types that are equal but for their last results, which spell the type's place."""
    def type_of(place, width):
        end = [I64 if place >> bit & 1 else I32 for bit in range(14)]
        return functype([I32] * width, [I32] * (width - 14) + end)

    return _types_of_size(size, type_of)


def types_of_those_before(size):
    """Function types of references to the types before them, and equal ones among these."""
    random = Random(38)

    def type_of(place, width):
        near = [nullable(random.randrange(max(0, place - 60), place)) if place else I32 for _ in range(2 * width // 3)]
        return functype(near, [I32])

    return _types_of_size(size, type_of)


def types_in_equal_groups(size):
    """Groups of a hundred types that name each other, all of them equal."""
    members, groups = 100, MOST_TYPES // 100
    width = min(MOST_PARAMETERS, (size - FRAMING) // MOST_TYPES // 3 - 3)

    def group(first):
        random = Random(39)
        return rec_group([
            functype([ref(first + random.randrange(members)) for _ in range(width)], []) for _ in range(members)])

    return _module_of_items(size, 'types', [group(members * place) for place in range(groups)])


def continuation_types(size):
    """As many types as a module may have, each second one of continuations of the one before."""
    width = min(MOST_PARAMETERS, (size - FRAMING) // (MOST_TYPES // 2) // 4 - 4)
    groups = [
        rec_group([functype([I32] * width, [ref(2 * place)] * width), conttype(2 * place)])
        for place in range(MOST_TYPES // 2)]
    return _module_of_items(size, 'types', groups)


def many_imports(size):
    """Imports of functions and globals, by names like those of programs."""
    items = (imported(as_func(0) if place % 3 else as_global(I32), f'runtime_function_{place}') for place in count())
    return _module_of_items(size, 'imports', items, types=[NOTHING])


def many_exports(size):
    """Exports by names that are equal at the front and differ at the end."""
    items = (export(f'module::part::function_{place}', 'func', place % FUNCTIONS) for place in count())
    return _with_functions(size, 'exports', items)


def exports_of_long_names(size):
    """Exports by names of a thousand bytes, which differ at the end alone."""
    items = (export('x' * 1000 + str(place), 'func', place % FUNCTIONS) for place in count())
    return _with_functions(size, 'exports', items)


def many_tables(size):
    """Tables with and without an initial value."""
    plain = FUNCREF + limits(1, 10)
    initial = b'\x40\x00' + ref(0) + limits(1) + ref_func(1) + b'\x0b'
    return _with_functions(size, 'tables', cycle([plain, initial]))


def many_tags(size):
    """Tags of one type."""
    count_of_tags = (size - 2 * FRAMING) // 2
    return module(types=[NOTHING], tags=[0] * count_of_tags)


FORMS = [
    globals_of_numbers, globals_of_references, globals_of_globals, elements_by_index, elements_by_expression,
    many_element_segments, one_data_segment, many_data_segments, one_custom_section, many_custom_sections,
    distinct_types, equal_types, types_that_differ_at_the_end, types_of_those_before, types_in_equal_groups,
    continuation_types, many_imports, many_exports, exports_of_long_names, many_tables, many_tags]
