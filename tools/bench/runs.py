"""Programs for `run`: each a function from a number of repeats to a module whose `main` does its work so often.

A repeat takes as many reductions as any other, so that those of a program grow along a line. What main gives depends on
all the work.
"""

from assembler.instructions import (
    DROP, I32_ADD, I32_EQZ, I32_MUL, I32_WRAP_I64, I64_ADD, I64_EXTEND_I32_S, access, block, br, br_if, br_table, call,
    call_indirect, i32_const, i64_const, if_, local_get, local_set, local_tee, loop, memory_fill, numeric, return_call)
from assembler.modules import code, export, module, table
from assembler.segments import active_functions
from assembler.types import EMPTY, FUNCREF, I32, I64, functype, limits

I32_SUB, I32_LT_U, I32_LE_U, I32_SHR_U, I32_AND = (
    numeric(f'i32.{name}') for name in ('sub', 'lt_u', 'le_u', 'shr_u', 'and'))
I64_SUB, I64_MUL, I64_XOR, I64_ROTL = (numeric(f'i64.{name}') for name in ('sub', 'mul', 'xor', 'rotl'))

REPEATS, RESULT, FIRST, SECOND, THIRD = range(5)    # locals of a main that loops: its own two, and the program's
NUMBER_TO_NUMBER = 1                                # the type of its other functions, by index
OFTEN = 500                                         # how often a repeat does what takes few reductions
DEPTH = 1000                                        # of a nest of blocks


def returning_at_once():
    """A main that gives zero, to see what a call takes before it runs anything."""
    return _calling(0, [])


def calls_and_arithmetic(repeats):
    """Functions that call the one before ten times, down to one of plain arithmetic."""
    arithmetic = b''.join(i64_const(place) + [I64_ADD, I64_SUB, I64_MUL][place % 3] for place in range(20))
    return _tower(repeats, i64_const(1) + arithmetic, 2)


def calls_alone(repeats):
    """The same with a lowest function of one constant, so that most of the work is calls and their exits."""
    return _tower(repeats, i64_const(1), 3)


def straight_arithmetic(repeats):
    """A long function of plain arithmetic, and hardly a call."""
    work = b''.join(i64_const(2 * place + 1) + I64_MUL + i64_const(7) + DROP for place in range(2500))
    return _tower(repeats, i64_const(1) + work, 0)


def _tower(repeats, lowest, height):
    """Functions that call the one before ten times. None of them loops, so that calls and arithmetic stand alone."""
    return _calling(repeats, [lowest] + [_sum_of_calls(function, 10) for function in range(1, height + 1)])


def _calling(repeats, bodies):
    """A module of functions that give an i64, whose main adds up what so many calls of the last one give."""
    return _program([functype([], [I64])], _sum_of_calls(len(bodies), repeats), (), bodies)


def _sum_of_calls(function, times):
    return i64_const(0) + (call(function) + I64_ADD) * times


def nested_loops(repeats):
    """Three loops in each other, the innermost of arithmetic on i64."""
    outer, inner, number = FIRST, SECOND, THIRD
    work = (local_get(number) + local_get(inner) + I64_EXTEND_I32_S + I64_XOR + i64_const(6364136223846793005) + I64_MUL
            + local_get(outer) + I64_EXTEND_I32_S + I64_ADD + i64_const(29) + I64_ROTL + local_set(number))
    loops = _counting_down(outer, 30, _counting_down(inner, 30, work))
    return _looping(repeats, loops + local_get(number) + I32_WRAP_I64 + local_set(RESULT), [(2, I32), (1, I64)])


def prime_sieve(repeats):
    """The sieve of Eratosthenes in memory, a byte for each number up to 1,024, and a count of what it leaves."""
    greatest, candidate, multiple = 1024, FIRST, SECOND
    is_unmarked = local_get(candidate) + access('i32.load8_u', 0, 0) + I32_EQZ
    mark = local_get(multiple) + i32_const(1) + access('i32.store8', 0, 0)
    advance = local_get(multiple) + local_get(candidate) + I32_ADD + local_tee(multiple)
    mark_multiples = _squared(candidate) + local_set(multiple) + loop(
        EMPTY, mark + advance + i32_const(greatest) + I32_LE_U + br_if(0))
    next_candidate = local_get(candidate) + i32_const(1) + I32_ADD + local_set(candidate)
    mark_all = i32_const(2) + local_set(candidate) + loop(
        EMPTY, is_unmarked + if_(EMPTY, mark_multiples) + next_candidate
        + _squared(candidate) + i32_const(greatest) + I32_LE_U + br_if(0))
    count = local_get(RESULT) + is_unmarked + I32_ADD + local_set(RESULT)
    work = _filling(0, i32_const(0), greatest + 1) + mark_all + _counting_down(candidate, greatest, count)
    return _looping(repeats, work, [(2, I32)], memories=[limits(1)])


def _squared(local):
    return local_get(local) * 2 + I32_MUL


def memory_fill_and_sum(repeats):
    """`memory.fill` of 16 KiB, and their sum by loads of eight bytes."""
    size, width, place, total = 0x4000, 8, FIRST, SECOND
    add = local_get(total) + local_get(place) + access('i64.load', 3, 0) + I64_ADD + local_set(total)
    work = _filling(width, local_get(REPEATS), size) + _counting_down(place, size, add, width)
    keep = local_get(total) + I32_WRAP_I64 + local_set(RESULT)
    return _looping(repeats, work + keep, [(1, I32), (1, I64)], memories=[limits(1)])


def _filling(address, byte, size):
    """Fill so many bytes of memory with the one that these instructions give."""
    return i32_const(address) + byte + i32_const(size) + memory_fill(0)


def recursive_fibonacci(repeats):
    """The fifteenth Fibonacci number, by a function that calls itself twice."""
    of_lower = [local_get(0) + i32_const(by) + I32_SUB + call(1) for by in (1, 2)]
    body = local_get(0) + i32_const(2) + I32_LT_U + if_(I32, local_get(0), b''.join(of_lower) + I32_ADD)
    work = local_get(RESULT) + i32_const(15) + call(1) + I32_ADD + local_set(RESULT)
    return _looping(repeats, work, others=[body])


def calls_in_one_another(repeats):
    """A function that counts down by calling itself, to set tail calls beside."""
    return _counting_by(call, repeats)


def tail_calls(repeats):
    """The same function with a tail call, which has one frame however far it counts."""
    return _counting_by(return_call, repeats)


def _counting_by(calls, repeats):
    """A function of a number that counts down in its nine lowest bits, which end as 0, and adds to those above them."""
    low, above = 0x1FF, 0x1357 << 9
    is_done = local_get(0) + i32_const(low) + I32_AND + I32_EQZ
    further = local_get(0) + i32_const(above - 1) + I32_ADD + calls(1)
    work = local_get(RESULT) + i32_const(OFTEN) + I32_ADD + call(1)
    body = is_done + if_(I32, local_get(0), further)
    return _looping(repeats, work + local_set(RESULT), others=[body])


def calls_through_a_table(repeats):
    """`call_indirect` of sixteen functions of one type, in an order without a pattern."""
    bodies = [local_get(0) + _scrambled(number) for number in range(16)]
    work = local_get(RESULT) * 2 + i32_const(28) + I32_SHR_U + call_indirect(NUMBER_TO_NUMBER, 0) + local_set(RESULT)
    return _looping(
        repeats, _counting_down(FIRST, OFTEN, work), [(1, I32)], bodies, tables=[table(FUNCREF, limits(16))],
        elements=[active_functions(range(1, 17))])


def calls_of_many_locals(repeats):
    """Calls of a function that has a hundred locals."""
    body = local_get(0) + _scrambled(0) + local_tee(100) + local_get(99) + I32_ADD
    work = local_get(RESULT) + call(1) + local_set(RESULT)
    return _looping(repeats, _counting_down(FIRST, OFTEN, work), [(1, I32)], [body], [(50, I64), (50, I32)])


def branch_table(repeats):
    """A `br_table` of 256 labels to sixteen cases, in an order without a pattern."""
    nest = block(EMPTY, local_get(RESULT) + i32_const(24) + I32_SHR_U + br_table([*range(16)] * 16, 0))
    for number in range(16):
        nest = block(EMPTY, nest + local_get(RESULT) + _scrambled(number) + local_set(RESULT) + br(15 - number))
    return _looping(repeats, _counting_down(FIRST, OFTEN, nest), [(1, I32)])


def branch_out_of_a_nest(repeats):
    """A branch with a value out of a thousand blocks, each with an operand: it cuts the lists of both."""
    nest = _nested(local_get(RESULT) + _scrambled(0) + br(DEPTH))
    return _looping(repeats, block(I32, nest + local_get(RESULT)) + local_set(RESULT))


def exits_of_a_nest(repeats):
    """The same blocks, left one by one, to set the branch beside."""
    return _looping(repeats, _nested(local_get(RESULT) + _scrambled(0) + local_set(RESULT)))


def _nested(body):
    """Code in blocks in each other, with an operand in each."""
    for number in range(DEPTH):
        body = block(EMPTY, i32_const(number) + body + DROP)
    return body


def _scrambled(number):
    """Make of the operand the next in a row of numbers without a pattern, one row for each number."""
    return i32_const(1664525 + 8 * number) + I32_MUL + i32_const(1013904223 + 2 * number) + I32_ADD


def _counting_down(counter, start, body, by=1):
    """Do this with a local that counts down to zero, but not at zero."""
    down = local_get(counter) + i32_const(by) + I32_SUB + local_tee(counter)
    return i32_const(start) + local_set(counter) + loop(EMPTY, body + down + br_if(0))


def _looping(repeats, work, local_runs=(), others=(), other_runs=(), **sections):
    """A module whose main does its work so often, and gives its local RESULT, an i32."""
    types = [functype([], [I32]), functype([I32], [I32])]
    main = _counting_down(REPEATS, repeats, work) + local_get(RESULT)
    return _program(types, main, [(2, I32), *local_runs], others, other_runs, **sections)


def _program(types, main, local_runs, others, other_runs=(), **sections):
    """A module that exports its first function as main. This has the first type, and others have the last."""
    return module(
        types=types, functions=[0] + [len(types) - 1] * len(others), exports=[export('main', 'func', 0)],
        codes=[code(main, local_runs)] + [code(body, other_runs) for body in others], **sections)


RUNS = {run.__name__.replace('_', ' '): run for run in (
    calls_and_arithmetic, calls_alone, straight_arithmetic, nested_loops, prime_sieve, memory_fill_and_sum,
    recursive_fibonacci, calls_in_one_another, tail_calls, calls_through_a_table, calls_of_many_locals, branch_table,
    branch_out_of_a_nest, exits_of_a_nest)}
