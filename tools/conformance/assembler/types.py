"""Types: of values, of functions and continuations, recursive groups, and limits."""

from assembler.encoding import indices, signed, unsigned, vector

I32 = b'\x7f'
I64 = b'\x7e'

# Heap types.
FUNC = b'\x70'
NOFUNC = b'\x73'
CONT = b'\x68'
NOCONT = b'\x75'

# The nullable references to these, which are spelled by the same bytes.
FUNCREF = FUNC
NULLFUNCREF = NOFUNC
CONTREF = CONT
NULLCONTREF = NOCONT

EMPTY = b'\x40'     # the block type of no parameters and no results


def heap_type(heap):
    """A heap type that is given by its bytes, or by the index of a type."""
    return signed(heap) if isinstance(heap, int) else heap


def nullable(heap):
    """The type (ref null heap)."""
    return b'\x63' + heap_type(heap)


def ref(heap):
    """The type (ref heap)."""
    return b'\x64' + heap_type(heap)


def functype(parameters, results):
    """The type of functions with these parameters and results."""
    return b'\x60' + vector(parameters) + vector(results)


def conttype(function):
    """The type of continuations of the function type with this index."""
    return b'\x5d' + unsigned(function)


def open_type(composite, *supertypes):
    """A function or continuation type that others may have as their supertype, with supertypes of its own."""
    return b'\x50' + indices(supertypes) + composite


def final_type(composite, *supertypes):
    """A function or continuation type that no other may have as its supertype, with supertypes of its own."""
    return b'\x4f' + indices(supertypes) + composite


def rec_group(members):
    """A recursive group."""
    return b'\x4e' + vector(members)


def limits(minimum, maximum=None):
    """The limits of a table or of a memory."""
    if maximum is None:
        return b'\x00' + unsigned(minimum)
    return b'\x01' + unsigned(minimum) + unsigned(maximum)
