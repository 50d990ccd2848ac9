"""Segments of elements and of data. Offsets and items are given by their instructions, without the end."""

from assembler.encoding import indices, name, unsigned, vector
from assembler.instructions import END, i32_const

ZERO = i32_const(0)
FUNCTIONS = b'\x00'     # the kind of an element segment that lists functions


def _expressions(items):
    return vector([item + END for item in items])


def active_functions(functions, offset=ZERO):
    """Functions for table 0."""
    return unsigned(0) + offset + END + indices(functions)


def passive_functions(functions):
    return unsigned(1) + FUNCTIONS + indices(functions)


def active_functions_in(table, functions):
    """Functions for any table, from its beginning."""
    return unsigned(2) + unsigned(table) + ZERO + END + FUNCTIONS + indices(functions)


def declared_functions(functions):
    return unsigned(3) + FUNCTIONS + indices(functions)


def active_expressions(items):
    """References to functions for table 0, from its beginning."""
    return unsigned(4) + ZERO + END + _expressions(items)


def passive_expressions(ref_type, items):
    return unsigned(5) + ref_type + _expressions(items)


def active_expressions_in(table, ref_type, items):
    """References for any table, from its beginning."""
    return unsigned(6) + unsigned(table) + ZERO + END + ref_type + _expressions(items)


def declared_expressions(ref_type, items):
    return unsigned(7) + ref_type + _expressions(items)


def active_data(text, offset=ZERO):
    """Data for memory 0."""
    return unsigned(0) + offset + END + name(text)


def passive_data(text):
    return unsigned(1) + name(text)


def active_data_in(memory, text):
    """Data for any memory, from its beginning."""
    return unsigned(2) + unsigned(memory) + ZERO + END + name(text)
