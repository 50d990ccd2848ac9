"""Straight code of one instruction or two, and functions that have little but their locals."""

from itertools import cycle, repeat
from random import Random

from assembler.instructions import (
    DROP, I32_ADD, NOP, block, global_get, global_set, i32_const, i64_const, local_get, local_set, local_tee, ref_func)
from assembler.modules import code, export, global_
from assembler.types import EMPTY, I32, I64, functype, nullable, ref
from filling import drawn, first, module_of_functions, module_of_rows, shuffled

NOTHING = functype([], [])
MOST_LOCALS = 50000
MOST_PARAMETERS = 1000


def _constant(random, spell, bits):
    """A constant whose spelling may have any length."""
    return spell(random.getrandbits(random.randint(1, bits)) * random.choice([1, -1]))


def _dropped_constants(size, seed, spell, bits, **layout):
    """Constants of up to so many bits, each dropped at once."""
    random = Random(seed)
    rows = drawn(lambda: _constant(random, spell, bits) + DROP, 5000)
    return module_of_rows(size, rows, [NOTHING], **layout)


def constants_and_drops(size):
    """`i32.const n; drop`, with numbers of one byte: two instructions in three bytes."""
    return _dropped_constants(size, 31, i32_const, 6)


def constants_of_all_lengths_and_drops(size):
    """The same with numbers of up to five bytes."""
    return _dropped_constants(size, 2, i32_const, 31)


def constants_in_one_body(size):
    """Those of all lengths as one function of the whole size."""
    return _dropped_constants(size, 2, i32_const, 31, body_size=None)


def long_constants_and_drops(size):
    """`i64.const n; drop`, with numbers of up to ten bytes."""
    return _dropped_constants(size, 3, i64_const, 63)


def sums(size):
    """One long sum, as straight as arithmetic can be."""
    random = Random(4)
    rows = drawn(lambda: _constant(random, i32_const, 12) + I32_ADD, 5000)
    return module_of_rows(size, rows, [NOTHING], opening=i32_const(0), closing=DROP)


def operands_that_pile_up(size):
    """Constants alone, so that the operands of each body are as many as its instructions."""
    random = Random(5)
    rows = drawn(lambda: _constant(random, i32_const, 6), 5000)
    return module_of_rows(size, rows, [NOTHING], closing=b'\x0f', body_size=None)


def one_byte_instructions(size):
    """`nop` alone."""
    return module_of_rows(size, repeat(NOP * 500), [NOTHING])


def locals_got_and_dropped(size):
    """`local.get x; drop`, of sixty locals of two types."""
    runs = [(30, I32), (30, I64)]
    rows = shuffled(Random(6), [local_get(place) + DROP for place in range(60)])
    return module_of_rows(size, rows, [NOTHING], local_runs=runs)


def many_locals_got_and_set(size):
    """Locals by turns of two types, as many as a function may have, got, set and teed all over."""
    random = Random(7)
    runs = [(1, I32), (1, I64)] * (MOST_LOCALS // 2)

    def row():
        return local_get(_even(random)) + local_tee(_even(random)) + local_set(_even(random))

    return module_of_rows(size, drawn(row, 20000), [NOTHING], local_runs=runs, body_size=0x100000)


def _even(random):
    """A local of the first of two types that stand by turns."""
    return 2 * random.randrange(MOST_LOCALS // 2)


def locals_set_in_blocks(size):
    """Locals without a default, each set in blocks and got there, and forgotten at the end of each."""
    random = Random(8)

    def row():
        place = random.randrange(MOST_LOCALS)
        return block(EMPTY, ref_func(0) + local_set(place) + local_get(place) + DROP)

    return module_of_rows(
        size, drawn(row, 20000), [NOTHING], local_runs=[(MOST_LOCALS, ref(0))], body_size=0x100000,
        exports=[export('x', 'func', 0)])


def locals_set_once(size):
    """A function for each few locals without a default, all of which are set, and forgotten by the next function."""
    body = b''.join(ref_func(0) + local_set(place) for place in range(1000))
    functions = repeat((0, code(body, [(MOST_LOCALS, ref(0))])))
    return module_of_functions(size, functions, [NOTHING], exports=[export('x', 'func', 0)])


def globals_got_and_set(size):
    """`global.get x; global.set y`, of a thousand globals."""
    random = Random(9)
    globals_ = [global_(I32, i32_const(place), True) for place in range(1000)]
    rows = drawn(lambda: global_get(random.randrange(1000)) + global_set(random.randrange(1000)), 5000)
    return module_of_rows(size, rows, [NOTHING], globals=globals_)


def functions_that_do_nothing(size):
    """As many functions without locals and instructions as there is room for."""
    return module_of_functions(size, repeat((0, code(b''))), [NOTHING])


def functions_of_many_parameters(size):
    """Functions that do nothing, each with as many parameters as a type may have."""
    types = [functype([I32, I64] * (MOST_PARAMETERS // 2), [])]
    return module_of_functions(size, repeat((0, code(b''))), types)


def functions_of_many_locals(size):
    """Functions that do nothing, each with as many locals as it may have, in one run."""
    return module_of_functions(size, repeat((0, code(b'', [(MOST_LOCALS, I32)]))), [NOTHING])


def functions_of_many_unset_locals(size):
    """The same with locals that have no default, and one of them set."""
    random = Random(10)

    def function():
        place = random.randrange(MOST_LOCALS)
        return 0, code(ref_func(0) + local_set(place) + local_get(place) + DROP, [(MOST_LOCALS, ref(0))])

    functions = cycle([function() for _ in range(5000)])
    return module_of_functions(size, functions, [NOTHING], exports=[export('x', 'func', 0)])


def runs_of_one_local(size):
    """Locals of runs of one, of three types by turns, as many as a function may have."""
    runs = first(MOST_LOCALS, cycle([(1, I32), (1, I64), (1, nullable(0))]))
    return module_of_functions(size, repeat((0, code(b'', runs))), [NOTHING])


def runs_of_no_local(size):
    """Runs that count nothing."""
    runs = [(0, I32), (0, I64)] * 10000
    return module_of_functions(size, repeat((0, code(b'', runs))), [NOTHING])


FORMS = [
    constants_and_drops, constants_of_all_lengths_and_drops, constants_in_one_body, long_constants_and_drops, sums,
    operands_that_pile_up, one_byte_instructions, locals_got_and_dropped, many_locals_got_and_set,
    locals_set_in_blocks, locals_set_once,
    globals_got_and_set, functions_that_do_nothing, functions_of_many_parameters, functions_of_many_locals,
    functions_of_many_unset_locals, runs_of_one_local, runs_of_no_local]
