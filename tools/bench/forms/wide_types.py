"""Types of a thousand parameters and results, each used again and again by an instruction of a few bytes.

Each form stands once with types that are the same, and once with types that match by subtyping alone: what is given is
`(ref null nofunc)`, and what is wanted is `(ref null func)`. The rows of a form that is *shifted* have an operand more
each time, so that what is given is never the same row twice.
"""

from itertools import repeat
from random import Random

from assembler.encoding import signed, unsigned
from assembler.instructions import (
    DROP, RETURN, UNREACHABLE, block, br_if, br_table, call, call_indirect, call_ref, cont_bind, i32_const, if_, loop,
    on, on_switch, ref_null, resume, suspend, switch)
from assembler.modules import as_func, as_tag, code, imported, module
from assembler.types import (
    FUNCREF, I32, I64, NOFUNC, NULLFUNCREF, conttype, functype, limits, nullable)
from filling import BODY_FRAMING, FRAMING, module_of_functions, module_of_rows

WIDTH = 1000
NOTHING = functype([], [])
NULL = ref_null(NOFUNC)     # an operand of the least type
NUMBER = i32_const(0)
CHUNK = 50                  # so many rows are put together, so that a module is quickly made

SAME = functype([I32] * WIDTH, [I32] * WIDTH)
BELOW = functype([FUNCREF] * WIDTH, [NULLFUNCREF] * WIDTH)      # its results match its parameters by subtyping


def rows_of_calls(size, wide, operand, row, before=(), behind=(), **others):
    """Functions that begin with a thousand operands, and go on with rows that take a thousand and give a thousand.

    Function 0 is of the wide type, which stands behind the types `before` and before those `behind`.
    """
    types = [NOTHING, *before, wide, *behind]
    return module_of_rows(
        size, repeat(row * CHUNK), types, opening=operand * WIDTH, closing=RETURN,
        imports=[imported(as_func(1 + len(before)))], **others)


def _thousand_types():
    """A thousand function types, no two of them the same, and references to them where they stand behind NOTHING."""
    types = [functype([I32] * (place % 40), [I64] * (place // 40)) for place in range(WIDTH)]
    return types, [nullable(1 + place) for place in range(WIDTH)]


def wide_calls(size):
    """Calls in a row, each of which takes what the one before gave."""
    return rows_of_calls(size, SAME, NUMBER, call(0))


def wide_calls_shifted(size):
    """The same with an operand more before each."""
    return rows_of_calls(size, SAME, NUMBER, NUMBER + call(0))


def wide_calls_by_subtyping(size):
    """Calls in a row, each of which takes what the one before gave, by subtyping."""
    return rows_of_calls(size, BELOW, NULL, call(0))


def wide_calls_by_subtyping_shifted(size):
    """The same with an operand more before each."""
    return rows_of_calls(size, BELOW, NULL, NULL + call(0))


def wide_calls_by_subtyping_replaced(size):
    """The same with one operand taken away and another put in its place."""
    return rows_of_calls(size, BELOW, NULL, DROP + NULL + call(0))


def wide_calls_of_mixed_types_shifted(size):
    """Calls whose results are of two types in an order without a pattern, shifted by one to seven operands."""
    random = Random(40)
    results = random.choices([FUNCREF, NULLFUNCREF], k=WIDTH)
    row = b''.join(NULL * (1 + place % 7) + call(0) for place in range(7))
    return rows_of_calls(size, functype([FUNCREF] * WIDTH, results), NULL, row)


def wide_calls_of_a_thousand_types_shifted(size):
    """Calls whose results are references to a thousand types, each of which matches func in its own way."""
    types, results = _thousand_types()
    return rows_of_calls(size, functype([FUNCREF] * WIDTH, results), NULL, NULL + call(0), before=types)


def wide_calls_of_equal_types_shifted(size):
    """Calls whose results are references to one type, and whose parameters are references to equal ones."""
    types = [functype([I32], [I32])] * WIDTH
    parameters = [nullable(1 + place) for place in range(WIDTH)]
    return rows_of_calls(size, functype(parameters, [nullable(1)] * WIDTH), NULL, NULL + call(0), before=types)


def wide_calls_of_a_thousand_types_by_turns(size):
    """Calls of two functions by turns, whose results are references to a thousand types, in one order and the other."""
    types, results = _thousand_types()
    turns = [functype([FUNCREF] * WIDTH, results), functype([FUNCREF] * WIDTH, results[::-1])]
    return module_of_rows(
        size, repeat((call(0) + call(1)) * CHUNK), [NOTHING, *types, *turns], opening=NULL * WIDTH, closing=RETURN,
        imports=[imported(as_func(1 + WIDTH)), imported(as_func(2 + WIDTH))])


def wide_calls_not_reached(size):
    """Calls in code that isn't reached, so that each takes what the one before gave, and operands made up."""
    return module_of_rows(
        size, repeat((call(0) + DROP) * CHUNK), [NOTHING, BELOW], opening=UNREACHABLE, closing=RETURN,
        imports=[imported(as_func(1))])


def wide_calls_indirect(size):
    """Calls through a table."""
    return rows_of_calls(
        size, BELOW, NULL, NUMBER + call_indirect(1, 0), tables=[FUNCREF + limits(1)])


def wide_calls_by_reference(size):
    """Calls of a reference."""
    return rows_of_calls(size, BELOW, NULL, ref_null(1) + call_ref(1))


def wide_results_dropped(size):
    """Calls that give a thousand operands, each followed by a thousand drops: the straight form of wide ones."""
    return module_of_rows(
        size, repeat(call(0) + DROP * WIDTH), [NOTHING, functype([], [I32] * WIDTH)], imports=[imported(as_func(1))])


def wide_blocks(size):
    """Blocks in a row, each of which hands on a thousand operands."""
    return rows_of_calls(size, SAME, NUMBER, block(signed(1), b''))


def wide_blocks_by_subtyping(size):
    """Blocks whose contents match their results by subtyping, and calls that want what they give."""
    turn = functype([NULLFUNCREF] * WIDTH, [FUNCREF] * WIDTH)
    return rows_of_calls(size, BELOW, NULL, call(0) + block(signed(2), b''), behind=[turn])


def wide_blocks_by_subtyping_shifted(size):
    """The same with an operand more before each."""
    turn = functype([NULLFUNCREF] * WIDTH, [FUNCREF] * WIDTH)
    row = call(0) + NULL + block(signed(2), b'')
    return rows_of_calls(size, BELOW, NULL, row, behind=[turn])


def wide_loops_by_subtyping(size):
    """Loops, likewise."""
    turn = functype([NULLFUNCREF] * WIDTH, [FUNCREF] * WIDTH)
    return rows_of_calls(size, BELOW, NULL, call(0) + loop(signed(2), b''), behind=[turn])


def wide_ifs_by_subtyping(size):
    """Ifs with an else, both branches of which match the results by subtyping."""
    turn = functype([NULLFUNCREF] * WIDTH, [FUNCREF] * WIDTH)
    return rows_of_calls(size, BELOW, NULL, call(0) + NUMBER + if_(signed(2), b'', b''), behind=[turn])


def wide_ifs_without_else(size):
    """Ifs without an else, whose parameters are references to a thousand types, and whose results are of func."""
    types, parameters = _thousand_types()
    turn = functype(parameters, [FUNCREF] * WIDTH)
    row = call(0) + NUMBER + if_(signed(2 + WIDTH), b'')
    return rows_of_calls(size, functype([FUNCREF] * WIDTH, parameters), NULL, row, before=types, behind=[turn])


def wide_ifs_not_reached(size):
    """Ifs without an else in code that isn't reached, each of which tests the last of what the one before gave."""
    return module_of_rows(
        size, repeat(if_(signed(1), b'') * CHUNK), [NOTHING, SAME], opening=UNREACHABLE, closing=RETURN)


def wide_blocks_nested(size):
    """Blocks in each other that hand on a thousand operands: each has all of them as its own."""
    opening, closing = b'\x02' + signed(1), b'\x0b'
    depth = (size - 2 * len(SAME) - 3 * WIDTH - 2 * FRAMING) // (len(opening) + 1)
    body = NUMBER * WIDTH + opening * depth + closing * depth + RETURN
    return module_of_functions(size, repeat((0, code(body))), [NOTHING, SAME])


def wide_branches(size):
    """Conditional branches in a row to a label of a thousand operands, which are of its types."""
    return _rows_of_branches(size, I32, NUMBER, NUMBER + br_if(0))


def wide_branches_by_subtyping(size):
    """Conditional branches that match their label by subtyping, and calls that give what matches it again."""
    return _rows_of_branches(size, FUNCREF, NULL, NUMBER + br_if(0) + call(0))


def wide_branches_by_subtyping_shifted(size):
    """The same with an operand more before each."""
    return _rows_of_branches(size, FUNCREF, NULL, NULL + NUMBER + br_if(0) + call(0))


def _rows_of_branches(size, value_type, operand, row):
    """Functions of a block of a thousand results, with rows of branches to it.

    Function 0 takes a thousand of the type, and gives a thousand that match it.
    """
    types = [NOTHING, SAME if value_type == I32 else BELOW, functype([], [value_type] * WIDTH)]
    return module_of_rows(
        size, repeat(row * CHUNK), types, opening=b'\x02' + signed(2) + operand * WIDTH,
        closing=UNREACHABLE + b'\x0b' + RETURN, imports=[imported(as_func(1))])


def _branch_table(size, label_types, operand, labels):
    """One br_table behind a thousand operands, to blocks around of these types of results."""
    types = [NOTHING, *(functype([], row) for row in label_types)]
    opening = b''.join(b'\x02' + signed(1 + place) for place in range(len(label_types)))
    closing = (b'\x0b' + RETURN) * len(label_types)
    front = opening + operand * WIDTH + NUMBER + b'\x0e'
    room = size - len(module(types=types)) - len(front + closing) - 2 * FRAMING - BODY_FRAMING
    spelled = (b''.join(map(unsigned, labels)) * (room // len(labels) + 1))[:room]
    body = front + unsigned(len(spelled)) + spelled + unsigned(0) + closing
    return module_of_functions(size, repeat((0, code(body))), types)


def wide_branch_table(size):
    """One br_table of as many labels as there is room for, all of one block of the operands' types."""
    return _branch_table(size, [[I32] * WIDTH], NUMBER, [0])


def wide_branch_table_by_subtyping(size):
    """The same, by subtyping."""
    return _branch_table(size, [[FUNCREF] * WIDTH], NULL, [0])


def wide_branch_table_of_many_blocks(size):
    """One br_table to a hundred blocks of types of their own, each matched by subtyping."""
    random = Random(41)
    rows = [random.choices([FUNCREF, NULLFUNCREF], k=WIDTH) for _ in range(100)]
    return _branch_table(size, rows, NULL, random.choices(range(100), k=5000))


def wide_branch_tables(size):
    """Small br_tables by subtyping, each in a block of its own, whose operands a call gives."""
    inner = call(0) + NUMBER + br_table([0] * 20, 0)
    turn = functype([FUNCREF] * WIDTH, [FUNCREF] * WIDTH)
    return rows_of_calls(size, BELOW, NULL, block(signed(2), inner), behind=[turn])


def wide_branch_tables_not_reached(size):
    """br_tables of a few labels behind a branch, which take some operands and make up all others."""
    row = NULL + NUMBER + br_table([0] * 4, 0)
    return _rows_of_branches(size, FUNCREF, NULL, row)


# The types of a module that resumes, behind NOTHING: what its clauses want matches by subtyping alone.
RESUMED, RESUMED_CONTINUATION, TAG, REST, REST_CONTINUATION, LABEL, PLAIN_TAG = range(1, 8)


def _switching_types(least, greatest):
    return [
        NOTHING,
        functype([greatest] * WIDTH, [least] * WIDTH),
        conttype(RESUMED),
        functype([least] * (WIDTH - 1), [greatest] * WIDTH),
        functype([least] * WIDTH, [greatest] * WIDTH),
        conttype(REST),
        functype([], [greatest] * (WIDTH - 1) + [nullable(REST_CONTINUATION)]),
        functype([], [least] * WIDTH)]


def _resumes(size, clauses, row_count, least=NULLFUNCREF, greatest=FUNCREF, operand=NULL):
    """Functions of resumes in a row, each with so many clauses to one block around."""
    row = ref_null(RESUMED_CONTINUATION) + resume(RESUMED_CONTINUATION, *clauses)
    return module_of_rows(
        size, repeat(row * row_count), _switching_types(least, greatest),
        opening=b'\x02' + signed(LABEL) + operand * WIDTH, closing=UNREACHABLE + b'\x0b' + RETURN,
        imports=[imported(as_tag(TAG)), imported(as_tag(PLAIN_TAG))])


def wide_resumes(size):
    """Resumes without a clause."""
    return _resumes(size, [], CHUNK)


def wide_resume_clauses_of_the_same(size):
    """Resumes of ten clauses each, all of whose types are the same."""
    return _resumes(size, [on(0, 0)] * 10, 10, I32, I32, NUMBER)


def wide_resume_clauses(size):
    """Resumes of one clause each, all of whose parts match by subtyping alone."""
    return _resumes(size, [on(0, 0)], CHUNK)


def wide_resume_of_many_clauses(size):
    """Resumes of as many clauses as fit into 64 KiB."""
    return _resumes(size, [on(0, 0)] * 20000, 1)


def wide_resume_switch_clauses(size):
    """Resumes of ten clauses that let switch pass."""
    return _resumes(size, [on_switch(1)] * 10, 10)


def wide_resume_clauses_by_turns(size):
    """Resumes of a thousand clauses each, to two blocks by turns, all of whose parts match by subtyping alone."""
    row = ref_null(RESUMED_CONTINUATION) + resume(RESUMED_CONTINUATION, *[on(0, 0), on(0, 1)] * 500)
    opening = (b'\x02' + signed(LABEL)) * 2 + NULL * WIDTH
    return module_of_rows(
        size, repeat(row), _switching_types(NULLFUNCREF, FUNCREF),
        opening=opening, closing=(UNREACHABLE + b'\x0b') * 2 + RETURN,
        imports=[imported(as_tag(TAG)), imported(as_tag(PLAIN_TAG))])


def wide_resume_switch_clauses_by_turns(size):
    """Resumes of a thousand clauses that let switch pass for two tags by turns."""
    row = ref_null(RESUMED_CONTINUATION) + resume(RESUMED_CONTINUATION, *[on_switch(1), on_switch(2)] * 500)
    return module_of_rows(
        size, repeat(row), _switching_types(NULLFUNCREF, FUNCREF),
        opening=b'\x02' + signed(LABEL) + NULL * WIDTH, closing=UNREACHABLE + b'\x0b' + RETURN,
        imports=[imported(as_tag(TAG)), imported(as_tag(PLAIN_TAG)), imported(as_tag(PLAIN_TAG))])


def wide_suspends(size):
    """Suspends in a row, each of which takes what the one before gave, by subtyping."""
    return module_of_rows(
        size, repeat(suspend(0) * CHUNK), [NOTHING, BELOW], opening=NULL * WIDTH, closing=RETURN,
        imports=[imported(as_tag(1))])


def wide_binds(size):
    """Binds of no parameter, whose two types match by subtyping alone."""
    types = [
        NOTHING, functype([FUNCREF] * WIDTH, [NULLFUNCREF] * WIDTH), conttype(1),
        functype([NULLFUNCREF] * WIDTH, [FUNCREF] * WIDTH), conttype(3)]
    row = ref_null(2) + cont_bind(2, 4) + DROP
    return module_of_rows(size, repeat(row * CHUNK), types)


def wide_switches(size):
    """Switches in a row, all of whose parts match by subtyping alone."""
    types = [
        NOTHING, functype([NULLFUNCREF] * (WIDTH - 1), [FUNCREF] * WIDTH), conttype(1),
        functype([FUNCREF] * (WIDTH - 1) + [nullable(2)], [NULLFUNCREF] * WIDTH), conttype(3),
        functype([], [FUNCREF] * WIDTH)]
    row = ref_null(4) + switch(4, 0)
    return module_of_rows(
        size, repeat(row * CHUNK), types, opening=NULL * (WIDTH - 1), closing=RETURN, imports=[imported(as_tag(5))])


FORMS = [
    wide_calls, wide_calls_shifted, wide_calls_by_subtyping, wide_calls_by_subtyping_shifted,
    wide_calls_by_subtyping_replaced, wide_calls_of_mixed_types_shifted, wide_calls_of_a_thousand_types_shifted,
    wide_calls_of_equal_types_shifted, wide_calls_of_a_thousand_types_by_turns, wide_calls_not_reached,
    wide_calls_indirect, wide_calls_by_reference, wide_results_dropped,
    wide_blocks, wide_blocks_by_subtyping, wide_blocks_by_subtyping_shifted, wide_blocks_nested,
    wide_loops_by_subtyping, wide_ifs_by_subtyping, wide_ifs_without_else, wide_ifs_not_reached,
    wide_branches, wide_branches_by_subtyping, wide_branches_by_subtyping_shifted,
    wide_branch_table, wide_branch_table_by_subtyping, wide_branch_table_of_many_blocks, wide_branch_tables,
    wide_branch_tables_not_reached, wide_resumes, wide_resume_clauses_of_the_same, wide_resume_clauses,
    wide_resume_clauses_by_turns, wide_resume_of_many_clauses, wide_resume_switch_clauses,
    wide_resume_switch_clauses_by_turns, wide_suspends, wide_binds, wide_switches]
