"""Modules: their sections, and what stands in these."""

from assembler.encoding import indices, name, unsigned, vector
from assembler.instructions import END

HEADER = b'\x00asm\x01\x00\x00\x00'

# The sections by id, in the order in which they stand.
SECTION_IDS = {
    'types': 1, 'imports': 2, 'functions': 3, 'tables': 4, 'memories': 5, 'tags': 13, 'globals': 6, 'exports': 7,
    'start': 8, 'elements': 9, 'data_count': 12, 'codes': 10, 'datas': 11,
}
EXTERN_KINDS = {'func': 0, 'table': 1, 'memory': 2, 'global': 3, 'tag': 4}


def section(kind, contents):
    """A section of this kind with these contents."""
    return bytes([SECTION_IDS[kind]]) + unsigned(len(contents)) + contents


def _contents(kind, given):
    """The contents of a section: functions and tags are given by the indices of their types, all else by its bytes."""
    if kind in ('start', 'data_count'):
        return unsigned(given)
    if kind == 'functions':
        return indices(given)
    if kind == 'tags':
        return vector([tag(function_type) for function_type in given])
    return vector(given)


def module(**sections):
    """A module with these sections, each by its name in `SECTION_IDS`."""
    unknown = set(sections) - set(SECTION_IDS)
    if unknown:
        raise ValueError(f'no such sections: {unknown}')
    return HEADER + b''.join(
        section(kind, _contents(kind, sections[kind])) for kind in SECTION_IDS if kind in sections)


def imported(extern_type, item='x', source='m'):
    """An import of an item from a module."""
    return name(source) + name(item) + extern_type


def as_func(function_type):
    return bytes([EXTERN_KINDS['func']]) + unsigned(function_type)


def as_table(ref_type, table_limits):
    return bytes([EXTERN_KINDS['table']]) + ref_type + table_limits


def as_memory(memory_limits):
    return bytes([EXTERN_KINDS['memory']]) + memory_limits


def as_global(value_type, mutable=False):
    return bytes([EXTERN_KINDS['global']]) + global_type(value_type, mutable)


def as_tag(function_type):
    return bytes([EXTERN_KINDS['tag']]) + tag(function_type)


def global_type(value_type, mutable):
    return value_type + (b'\x01' if mutable else b'\x00')


def tag(function_type):
    return b'\x00' + unsigned(function_type)


def table(ref_type, table_limits, initial=None):
    """A table, with the instructions of its initial value where they are given."""
    if initial is None:
        return ref_type + table_limits
    return b'\x40\x00' + ref_type + table_limits + initial + END


def global_(value_type, initial, mutable=False):
    """A global, with the instructions of its initial value."""
    return global_type(value_type, mutable) + initial + END


def export(export_name, kind, index):
    """An export of what has this index among those of its kind, which is one of `EXTERN_KINDS`."""
    return name(export_name) + bytes([EXTERN_KINDS[kind]]) + unsigned(index)


def code(body, local_runs=()):
    """The code of a function, with its size in front."""
    contents = code_contents(body, local_runs)
    return unsigned(len(contents)) + contents


def code_contents(body, local_runs=()):
    """The code of a function, without its size. Locals stand in runs of one type, each as a count and a type."""
    return vector([unsigned(count) + value_type for count, value_type in local_runs]) + body + END
