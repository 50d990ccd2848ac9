"""Types that rows go through and values of these, and the beginnings of many whole modules."""

from typing import NamedTuple

from assembler.instructions import i32_const, i64_const, local_get, ref_func, ref_null
from assembler.modules import code
from assembler.types import CONT, FUNC, FUNCREF, I32, I64, NOCONT, NOFUNC, conttype, functype, ref
from rows.sections import wrong_type
from surroundings import CONT_I32, FUNC_I32


class Sample(NamedTuple):
    """A value type, and the instruction that makes a value of it."""

    name: str
    type: bytes
    constant: bytes

    @property
    def wrong_type(self):
        """An integer type that isn't this type."""
        return wrong_type(self.type)

    @property
    def wrong_constant(self):
        """The instruction that makes a value of the wrong type."""
        return i32_const(0) if self.wrong_type == I32 else i64_const(0)


SAMPLES = [
    Sample('i32', I32, i32_const(0)), Sample('i64', I64, i64_const(0)), Sample('funcref', FUNCREF, ref_null(FUNC)),
    Sample('not-null', ref(FUNC_I32), ref_func(3))]

HEAP_TYPES = [
    ('func', FUNC), ('nofunc', NOFUNC), ('cont', CONT), ('nocont', NOCONT), ('function-type', FUNC_I32),
    ('cont-type', CONT_I32)]

# The types of many whole modules, and functions of types 0 and 2.
EMPTY_FUNC = functype([], [])
MODULE_TYPES = [EMPTY_FUNC, conttype(0), functype([I32], [I32])]
MODULE_FUNCTIONS = {'functions': [0, 2], 'codes': [code(b''), code(local_get(0))]}
