"""Types with declared supertypes: chains as long as may be, many types below one, and rows of proper subtypes.

Rows are those of `wide_types.py`: a function of a thousand parameters and results is called again and again by a few
bytes, and gives proper subtypes of what it takes.
"""

from itertools import repeat

from assembler.encoding import signed
from assembler.instructions import DROP, block, call, local_get, local_set, ref_null
from assembler.modules import module
from assembler.types import FUNCREF, NULLFUNCREF, final_type, functype, nullable, open_type
from filling import FRAMING, module_of_rows
from forms.wide_types import CHUNK, NOTHING, WIDTH, rows_of_calls

MOST_TYPES = 10000
FIRST = 1               # the index of the first type of a chain, or of the one that others are below, behind NOTHING
LAST = MOST_TYPES - 4   # the last one's, so that there is room for the types of functions
OWN_BYTES = 9           # at most so many bytes has a type beside its parameters and results


def _chain(composites):
    """Types of these composites, each below the one before it."""
    return [open_type(composite, *([FIRST + place - 1] if place else [])) for place, composite in enumerate(composites)]


def _below_one(count):
    """A type, and so many below it, no two of them the same: by their bits they give the least or the greatest reference."""
    bits = range(count.bit_length())
    least_or_greatest = [
        [NULLFUNCREF if place >> bit & 1 else FUNCREF for bit in bits] for place in range(1, count + 1)]
    return [open_type(functype([], [FUNCREF for _ in bits]))] + [
        final_type(functype([], results), FIRST) for results in least_or_greatest]


CHAIN = _chain([NOTHING] * (LAST - FIRST + 1))
BELOW_ONE = _below_one(LAST - FIRST)


def _width(size, value_bytes):
    """How many values of so many bytes the types of a chain may have that fills a module."""
    return max(1, min(WIDTH, ((size - FRAMING) // MOST_TYPES - OWN_BYTES) // value_bytes))


def chain_of_types(size):
    """A chain of types that take the same, each of which is compared with the one before it."""
    wide = functype([nullable(0)] * _width(size, 2), [])
    return module(types=[NOTHING, *_chain([wide] * (LAST - FIRST + 1))])


def chain_of_types_that_give_themselves(size):
    """A chain of types that give references to themselves: proper subtypes of what their supertypes give."""
    width = _width(size, 4)
    return module(types=[NOTHING, *_chain(
        [functype([], [nullable(FIRST + place)] * width) for place in range(LAST - FIRST + 1)])])


def ends_of_a_chain(size):
    """References to the last type of a chain, put where those to its first are wanted."""
    return module_of_rows(
        size, repeat((local_get(0) + local_set(1)) * CHUNK), [NOTHING, *CHAIN],
        local_runs=[(1, nullable(LAST)), (1, nullable(FIRST))])


def _calls(size, types, given, row):
    """Rows of calls of function 0, which takes references to the first type and gives these, in a module of these types."""
    wide = functype([nullable(FIRST)] * WIDTH, [nullable(index) for index in given])
    return rows_of_calls(size, wide, ref_null(given[0]), row, before=types)


def wide_calls_of_proper_subtypes(size):
    """Calls in a row, each of which takes what the one before gave: references to a type below the wanted one."""
    return _calls(size, CHAIN[:2], [FIRST + 1] * WIDTH, call(0))


def wide_calls_of_proper_subtypes_shifted(size):
    """The same with an operand more before each."""
    return _calls(size, CHAIN[:2], [FIRST + 1] * WIDTH, ref_null(FIRST + 1) + call(0))


def wide_calls_of_proper_subtypes_replaced(size):
    """The same with one operand taken away and another put in its place."""
    return _calls(size, CHAIN[:2], [FIRST + 1] * WIDTH, DROP + ref_null(FIRST + 1) + call(0))


def wide_calls_along_a_chain_shifted(size):
    """The same with references to a thousand types all along a chain."""
    given = [FIRST + 9 * place + 1 for place in range(WIDTH)]
    return _calls(size, CHAIN, given, ref_null(FIRST + 1) + call(0))


def wide_calls_of_types_below_one_shifted(size):
    """The same with references to a thousand of ten thousand types below the wanted one."""
    given = [FIRST + 9 * place + 1 for place in range(WIDTH)]
    return _calls(size, BELOW_ONE, given, ref_null(FIRST + 1) + call(0))


def wide_blocks_of_proper_subtypes(size):
    """Blocks whose contents are proper subtypes of their results, and calls that want what they give."""
    below, wanted = [nullable(FIRST + 1)] * WIDTH, [nullable(FIRST)] * WIDTH
    return rows_of_calls(
        size, functype(wanted, below), ref_null(FIRST + 1), call(0) + block(signed(4), b''),
        before=CHAIN[:2], behind=[functype(below, wanted)])


FORMS = [
    chain_of_types, chain_of_types_that_give_themselves, ends_of_a_chain, wide_calls_of_proper_subtypes,
    wide_calls_of_proper_subtypes_shifted, wide_calls_of_proper_subtypes_replaced, wide_calls_along_a_chain_shifted,
    wide_calls_of_types_below_one_shifted, wide_blocks_of_proper_subtypes]
