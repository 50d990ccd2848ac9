"""Runs of blocks, branches, calls and traps. What was printed before a run ends stands."""

from assembler.encoding import signed, vector
from assembler.instructions import (
    DROP, END, I32_ADD, I32_EQZ, I32_MUL, NOP, REF_AS_NON_NULL, REF_IS_NULL, RETURN, SELECT, UNREACHABLE, access,
    block, br, br_if, br_on_non_null, br_on_null, br_table, call, call_indirect, call_ref, i32_const, i64_const, if_,
    local_get, local_set, local_tee, loop, numeric, ref_func, ref_null, select, table_get)
from assembler.modules import code, section, table
from assembler.segments import active_expressions, active_functions, declared_functions
from assembler.types import EMPTY, FUNC, FUNCREF, I32, I64, NOFUNC, functype, limits, rec_group, ref
from rows.runs import FIRST_TYPE, MAIN_TYPE, NOTHING_TYPE, RunSection, main_module, printed
from rows.sections import spelled
from rows.words import Pieces, shortest

BLOCKS = RunSection('blocks')
BRANCHES = RunSection('branches')
CALLS = RunSection('calls')
TRAPS = RunSection('traps')

PRINTS = {'printing': ['print_i32']}
I32_SUB = numeric('i32.sub')
UNREACHED = UNREACHABLE         # where nothing leads


def _in(index):
    """The block type of a function type behind those of main and of what prints."""
    return signed(FIRST_TYPE + index)


def _plain_rows():
    BLOCKS.counted('nothing', [], b'')
    BLOCKS.counted('nop', [], NOP * 3)
    BLOCKS.counted('drop', [I32], i32_const(1) + i32_const(2) + DROP)
    for condition in (0, 1, -1, 2):
        given = i32_const(5) + i32_const(6) + i32_const(condition)
        BLOCKS.main(f'select-by-{condition}', [I32], given + SELECT)
        BLOCKS.main(f'select-of-i32-by-{condition}', [I32], given + select(I32))
    BLOCKS.counted('select', [I64], i64_const(5) + i64_const(6) + i32_const(0) + SELECT)
    null_or_not = ref_null(FUNC) + ref_func(0) + i32_const(1) + select(FUNCREF) + REF_IS_NULL
    BLOCKS.counted('select-of-references', [I32], null_or_not)
    body = i32_const(7) + local_set(0) + i64_const(8) + local_tee(1) + local_get(0) + local_get(1) + local_get(2)
    BLOCKS.counted('locals', [I64, I32, I64, I32], body, [(1, I32), (1, I64), (1, I32)])
    BLOCKS.main(
        'locals-at-first', [I32, I64, I32], local_get(1) + local_get(0) + local_get(2) + REF_IS_NULL,
        [(1, I64), (1, I32), (1, FUNCREF)])
    BLOCKS.counted('references', [I32] * 3,
                   ref_null(NOFUNC) + REF_IS_NULL + ref_func(0) + REF_IS_NULL + ref_func(0) + REF_AS_NON_NULL
                   + REF_IS_NULL)


def _block_rows():
    BLOCKS.counted('block', [I32], block(I32, i32_const(5)))
    BLOCKS.counted('block-of-nothing', [], block(EMPTY, b''))
    BLOCKS.counted('loop', [I32], loop(I32, i32_const(5)))
    types = {'types': [functype([I32, I32], [I32, I32, I32]), functype([I32], [])]}
    given = i32_const(9) + i32_const(4) + i32_const(5)
    more = [I32] * 4
    BLOCKS.counted('block-with-parameters', more, given + block(_in(0), I32_ADD + i32_const(1) + i32_const(2)), **types)
    BLOCKS.main('loop-with-parameters', more, given + loop(_in(0), I32_ADD + i32_const(1) + i32_const(2)), **types)
    BLOCKS.main('block-that-takes-all', [], i32_const(1) + block(_in(1), DROP), **types)
    nest = i32_const(1)
    for number in range(2, 40):
        nest = block(I32, nest + i32_const(number) + I32_ADD)
    BLOCKS.counted('blocks-in-blocks', [I32], nest)
    for condition in (0, 1, -1, 256):
        test = i32_const(condition)
        BLOCKS.main(f'if-by-{condition}', [], test + if_(EMPTY, printed(1)), **PRINTS)
        BLOCKS.main(f'if-and-else-by-{condition}', [I32], test + if_(I32, i32_const(3), i32_const(4)))
        BLOCKS.main(
            f'if-with-parameters-by-{condition}', more,
            given + test + if_(_in(0), I32_ADD + i32_const(0) * 2, i32_const(8)), **types)
    for condition in (0, 1):
        BLOCKS.counted(f'if-counted-by-{condition}', [], i32_const(condition) + if_(EMPTY, NOP))
        BLOCKS.counted(f'else-counted-by-{condition}', [], i32_const(condition) + if_(EMPTY, NOP, NOP * 2))
        BLOCKS.counted(f'if-of-nothing-by-{condition}', [], i32_const(condition) + if_(EMPTY, b'', b''))


def _deep_rows():
    """Blocks of which each stands in the one before, as many as this."""
    depth = 100000
    body = ['00', f'0240*{depth}', f'0B*{depth + 1}']
    size = Pieces().length(body)
    contents = ['01', shortest(size), *body]
    front = main_module([], b'')
    front = front[:front.index(section('codes', vector([code(b'')])))]
    given = ' '.join([spelled(front), f'0A{shortest(Pieces().length(contents))}', *contents])
    begun = block(EMPTY, b'').removesuffix(END)
    module_bytes = front + section('codes', vector([code(begun * depth + END * depth)]))
    for steps in (2 * depth + 3, 2 * depth + 2):
        BLOCKS.row(f'blocks-in-blocks-{depth}-times/{steps}-reductions', module_bytes, steps, words=given)


def _branch_rows():
    beneath = i32_const(8) + i32_const(9)
    BRANCHES.counted('out-of-a-block', [I32], block(I32, beneath + br(0) + UNREACHED))
    BRANCHES.counted('out-of-the-function', [I32], beneath + br(0) + UNREACHED)
    BRANCHES.counted('out-of-two-blocks', [I32], block(I32, block(EMPTY, beneath + br(1)) + UNREACHED))
    BRANCHES.main(
        'keeps-what-is-beneath', [I32, I32],
        i32_const(1) + block(I32, beneath + block(EMPTY, i32_const(7) + br(1)) + UNREACHED))
    BRANCHES.main(
        'of-two-values', [I32, I64], block(_in(0), i32_const(3) + i32_const(4) + i64_const(5) + br(0)),
        types=[functype([], [I32, I64])])
    for condition in (0, 1, -1):
        test = i32_const(condition)
        BRANCHES.counted(
            f'br_if-by-{condition}', [I32], block(I32, beneath + test + br_if(0) + DROP + DROP + i32_const(5)))
    for number in (0, 1, 2, 3, 4, -1, 2 ** 31 - 1):
        inner = block(EMPTY, block(EMPTY, block(EMPTY, i32_const(number) + br_table([2, 0, 1], 0)) + printed(1) + br(1))
                      + printed(2)) + printed(3)
        BRANCHES.main(f'br_table-by-{number}', [], inner, **PRINTS)
        values = block(I32, beneath + i32_const(number) + br_table([0, 1], 1)) + i32_const(100) + I32_ADD
        BRANCHES.main(f'br_table-with-values-by-{number}', [I32], values)
    BRANCHES.main('br_table-of-one-label', [I32], block(I32, beneath + i32_const(0) + br_table([], 0)))
    BRANCHES.counted('br_table', [I32], block(I32, beneath + i32_const(1) + br_table([1, 0], 1)))
    BRANCHES.counted('return', [I32], block(EMPTY, loop(EMPTY, beneath + RETURN)) + UNREACHED)
    BRANCHES.main('return-of-nothing', [], beneath + RETURN + UNREACHED)
    BRANCHES.main(
        'return-to-the-caller', [I32, I32], i32_const(1) + call(1) + i32_const(2) + I32_ADD,
        types=[functype([], [I32])], functions=[(FIRST_TYPE, code(block(I32, beneath + RETURN) + UNREACHED))])


def _loop_rows():
    """Sums from a number down to 1."""
    count = [(2, I32)]
    step = local_get(1) + local_get(0) + I32_ADD + local_set(1) + local_get(0) + i32_const(1) + I32_SUB + local_tee(0)
    for times in (1, 2, 10):
        BRANCHES.counted(
            f'loop-{times}-times', [I32],
            i32_const(times) + local_set(0) + loop(EMPTY, step + br_if(0)) + local_get(1), count)
    BRANCHES.counted(
        'loop-left-from-within', [I32],
        i32_const(3) + local_set(0)
        + block(EMPTY, loop(EMPTY, local_get(0) + I32_EQZ + br_if(1) + step + DROP + br(0))) + local_get(1), count)
    body = local_tee(0) + local_get(0) + I32_MUL + local_get(0) + i32_const(1) + I32_SUB + local_tee(1)
    factors = i32_const(7) + loop(_in(0), body + i32_const(1) + numeric('i32.gt_s') + if_(
        _in(0), DROP + local_get(1) + br(1)))
    BRANCHES.counted('loop-with-a-parameter', [I32], factors, count, types=[functype([I32], [I32])])
    BRANCHES.row('loop-without-end', main_module([], loop(EMPTY, br(0))), 1000)
    for steps in (0, 1, 2, 3, 4):
        BRANCHES.row(f'loop-that-prints/{steps}', main_module([], loop(EMPTY, printed(5) + br(0)), **PRINTS), 2 * steps)


def _null_branch_rows():
    types = {'types': [functype([], [I32]), functype([], [ref(FIRST_TYPE)])]}
    others = {'functions': [(FIRST_TYPE, code(i32_const(11)))], 'elements': [declared_functions([1])]} | types
    for name, reference in [('null', ref_null(FIRST_TYPE)), ('function', ref_func(1))]:
        BRANCHES.counted(
            f'br_on_null/of-{name}', [I32],
            block(I32, i32_const(6) + i32_const(7) + reference + br_on_null(0) + call_ref(FIRST_TYPE) + I32_ADD
                  + RETURN), **others)
        kept = block(_in(1), reference + br_on_non_null(0) + i32_const(7) + RETURN) + call_ref(FIRST_TYPE)
        BRANCHES.counted(f'br_on_non_null/of-{name}', [I32], kept, **others)
        BRANCHES.main(
            f'br_on_non_null/of-{name}-with-more-beneath', [I32],
            block(_in(1), i32_const(3) + i32_const(4) + reference + br_on_non_null(0) + I32_ADD + RETURN)
            + call_ref(FIRST_TYPE), **others)


FUNCTION_TYPES = [functype([], [I32]), functype([I32, I64], [I64, I32]), functype([], [I32])]
NUMBER, SWAP, SAME, IN_A_GROUP = range(FIRST_TYPE, FIRST_TYPE + 4)
CALLED = [
    (NUMBER, code(i32_const(11))), (SWAP, code(local_get(1) + local_get(0))), (SAME, code(i32_const(13))),
    (NOTHING_TYPE, code(b''))]
CALLABLE = {
    'types': FUNCTION_TYPES, 'functions': CALLED, 'tables': [table(FUNCREF, limits(8))],
    'elements': [active_functions([1, 2, 3, 4], i32_const(1)), declared_functions([1, 2, 3])]}

# A group of types of functions that give a number, and nothing; and once more the same group.
GROUP = rec_group([functype([], [I32]), functype([], [])])
GROUPED = {
    'types': [*FUNCTION_TYPES, GROUP, GROUP], 'functions': [*CALLED, (IN_A_GROUP, code(i32_const(15)))],
    'tables': [table(FUNCREF, limits(8))], 'elements': [active_functions([1, 2, 3, 4, 5], i32_const(1))]}
GIVEN = i32_const(3) + i64_const(4)


def indirect(place, function_type):
    return i32_const(place) + call_indirect(function_type, 0)


def _call_rows():
    CALLS.counted('call', [I32], call(1), **CALLABLE)
    CALLS.counted('call-with-operands', [I32, I64, I32], i32_const(1) + GIVEN + call(2), **CALLABLE)
    CALLS.counted('call_indirect', [I32], indirect(1, NUMBER), **CALLABLE)
    CALLS.counted('call_indirect-with-operands', [I64, I32], GIVEN + indirect(2, SWAP), **CALLABLE)
    CALLS.main('call_indirect-of-an-equivalent-type', [I32] * 2, indirect(1, SAME) + indirect(3, NUMBER), **CALLABLE)
    CALLS.main('call_indirect-of-a-type-in-a-group', [I32], indirect(5, IN_A_GROUP), **GROUPED)
    CALLS.main('call_indirect-of-a-type-in-an-equal-group', [I32], indirect(5, IN_A_GROUP + 2), **GROUPED)
    for name, place, function_type in [
            ('in-a-group-of-one', 5, NUMBER), ('not-of-the-group', 1, IN_A_GROUP),
            ('of-another-place', 5, IN_A_GROUP + 1), ('of-another-place-of-an-equal-group', 5, IN_A_GROUP + 3),
            ('not-of-the-group-at-another-place', 4, IN_A_GROUP + 1)]:
        TRAPS.main(f'call-type-mismatch/{name}', [], indirect(place, function_type) + UNREACHABLE, **GROUPED)
    CALLS.counted('call_ref', [I32], ref_func(1) + call_ref(NUMBER), **CALLABLE)
    CALLS.main('call_ref-with-operands', [I64, I32], GIVEN + ref_func(2) + call_ref(SWAP), **CALLABLE)
    CALLS.main('call_ref-of-an-equivalent-type', [I32], ref_func(3) + call_ref(NUMBER), **CALLABLE)
    CALLS.main(
        'locals-of-the-callee', [I32, I32],
        i32_const(5) + local_set(0) + i32_const(6) + call(1) + local_get(0), [(1, I32)], types=[functype([I32], [I32])],
        functions=[(FIRST_TYPE, code(local_get(1) + local_get(0) + local_set(1) + local_get(1) + I32_ADD, [(1, I32)]))])
    CALLS.main(
        'each-call-has-its-own-locals', [I32], call(1) + call(1) + I32_ADD, types=[functype([], [I32])],
        functions=[(FIRST_TYPE, code(local_get(0) + i32_const(3) + local_set(0) + local_get(0) + I32_ADD, [(1, I32)]))])


def _recursion_rows():
    """Functions that call themselves. A run has at most 20,000 frames, main's among them."""
    less = local_get(0) + i32_const(1) + I32_SUB
    down = local_get(0) + if_(I32, less + call(1) + i32_const(1) + I32_ADD, i32_const(0))
    sections = {'types': [functype([I32], [I32])], 'functions': [(FIRST_TYPE, code(down))]}
    for times in (0, 1, 5):
        CALLS.counted(f'recursion-{times}-times', [I32], i32_const(times) + call(1), **sections)
    CALLS.each_step('recursion-twice', main_module([I32], i32_const(2) + call(1), **sections))
    for times in (19998, 19999):
        CALLS.main(f'recursion-{times}-times', [I32], i32_const(times) + call(1), **sections)
    forever = {'functions': [(MAIN_TYPE, code(NOP + call(2)))], **PRINTS}
    CALLS.counted('frames', [], printed(7) + call(2) + printed(8), **forever)
    endless = main_module([], loop(EMPTY, call(1) + br(0)), functions=[(MAIN_TYPE, code(b''))])
    CALLS.row('frames/that-return', endless, 100000)
    # Function 2 calls itself so many times, and then prints.
    down = local_get(0) + if_(EMPTY, less + call(2), printed(8))
    for times in (19998, 19999):
        CALLS.main(
            f'a-printer-takes-no-frame-{times}', [], i32_const(times) + call(2), types=[functype([I32], [])],
            functions=[(FIRST_TYPE, code(down))], **PRINTS)
    CALLS.main('frames-by-reference', [], ref_func(0) + call_ref(0))
    CALLS.main(
        'frames-by-table', [], i32_const(0) + call_indirect(0, 0), tables=[table(FUNCREF, limits(1))],
        elements=[active_functions([0])])


def _cut_rows():
    """A loop that calls a function with a block, cut at each reduction."""
    double = block(EMPTY, local_get(0) + I32_EQZ + br_if(0)) + local_get(0) + i32_const(2) + I32_MUL
    turn = local_get(0) + call(1) + local_get(1) + I32_ADD + local_set(1) + local_get(0) + i32_const(1) + I32_ADD
    body = loop(EMPTY, turn + local_tee(0) + i32_const(3) + numeric('i32.lt_u') + br_if(0)) + local_get(1)
    CALLS.each_step('in-a-loop', main_module(
        [I32], body, [(2, I32)], types=[functype([I32], [I32])], functions=[(FIRST_TYPE, code(double))]))


def _printing_rows():
    numbers = [0, 1, -1, 9, 10, -10, 2 ** 31 - 1, -2 ** 31]
    CALLS.main('print_i32', [], printed(*numbers), **PRINTS)
    wide = [0, 1, -1, 99, -100, 2 ** 63 - 1, -2 ** 63, 2 ** 32]
    CALLS.main('print_i64', [], b''.join(i64_const(number) + call(0) for number in wide), printing=['print_i64'])
    text = [72, 105, 10, 0, 255, 256, 266, -1, -246, 2 ** 31 - 1]
    CALLS.main('print_byte', [], printed(*text), printing=['print_byte'])
    CALLS.main('print_byte-before-a-value', [I32], printed(72, 105) + i32_const(5), printing=['print_byte'])
    every = {'printing': ['print_byte', 'print_i64', 'print_i32', 'print_byte']}
    CALLS.main(
        'printers-in-any-order', [I64],
        i32_const(72) + call(3) + i32_const(5) + call(2) + i64_const(-6) + call(1) + i32_const(10) + call(0)
        + i64_const(7), **every)
    CALLS.counted('a-call-of-a-printer', [], printed(5), **PRINTS)
    CALLS.counted('a-printer-by-reference', [], i32_const(5) + ref_func(0) + call_ref(1), **PRINTS,
                  elements=[declared_functions([0])])
    CALLS.counted(
        'a-printer-by-table', [], i32_const(5) + i32_const(1) + call_indirect(1, 0), **PRINTS,
        tables=[table(FUNCREF, limits(3))], elements=[active_functions([0], i32_const(1))])


# What traps. In the table stand function 2, which gives a number, null, function 5, which gives nothing, the printer,
# and nulls.
KINDS = {
    'unreachable': UNREACHABLE,
    'divide-by-zero': i32_const(1) + i32_const(0) + numeric('i32.div_u') + DROP,
    'remainder-by-zero': i64_const(1) + i64_const(0) + numeric('i64.rem_s') + DROP,
    'integer-overflow': i32_const(-2 ** 31) + i32_const(-1) + numeric('i32.div_s') + DROP,
    'memory': i32_const(-1) + access('i32.load8_u', 0, 0) + DROP,
    'table': i32_const(6) + table_get(0) + DROP,
    'undefined-element': indirect(6, NUMBER) + DROP,
    'undefined-element-of-no-table': i32_const(0) + call_indirect(NUMBER, 1) + DROP,
    'undefined-element-at-the-greatest': indirect(-1, NUMBER) + DROP,
    'null-element': indirect(1, NUMBER) + DROP,
    'null-element-that-was-never-set': indirect(5, NUMBER) + DROP,
    'call-type-mismatch': indirect(0, NOTHING_TYPE),
    'call-type-mismatch-with-operands': GIVEN + indirect(0, SWAP) + DROP + DROP,
    'call-type-mismatch-of-a-function-of-nothing': indirect(2, NUMBER) + DROP,
    'call-type-mismatch-of-a-printer': indirect(3, NOTHING_TYPE),
    'call-of-null': ref_null(NUMBER) + call_ref(NUMBER) + DROP,
    'null-as-non-null': ref_null(FUNC) + REF_AS_NON_NULL + DROP,
}


def _trap_rows():
    """Each kind of trap, alone and with what was printed before."""
    sections = PRINTS | {
        'types': FUNCTION_TYPES, 'functions': CALLED, 'tables': [table(FUNCREF, limits(6)), table(FUNCREF, limits(0))],
        'elements': [active_expressions([ref_func(2), ref_null(FUNC), ref_func(5), ref_func(0)])],
        'memories': [limits(1)]}
    for name, body in KINDS.items():
        TRAPS.main(f'printed-before/{name}', [I32], printed(1, -2) + body + printed(3) + i32_const(4), **sections)
        TRAPS.counted(f'alone/{name}', [], body, **sections)
    deep = block(EMPTY, loop(EMPTY, UNREACHABLE))
    TRAPS.counted(
        'in-a-callee', [I32], printed(1) + call(2) + i32_const(4), types=[functype([], [])],
        functions=[(FIRST_TYPE, code(printed(2) + deep + printed(3)))], **PRINTS)
    TRAPS.main('the-first-of-two', [], i32_const(1) + i32_const(0) + numeric('i32.div_u') + UNREACHABLE)


def _last_frame_rows():
    """A call by a table in the last frame that a run may have, or in the one before. A trap goes before the limit."""
    again = local_get(0) + if_(
        EMPTY, local_get(0) + i32_const(1) + I32_SUB + call(1), i32_const(0) + call_indirect(MAIN_TYPE, 0))
    for name, elements, times in [
            ('null', [], 19998), ('a-frame-too-many', [active_functions([0])], 19998),
            ('the-last-frame', [active_functions([2])], 19997)]:
        TRAPS.main(
            f'at-the-limit-of-frames/{name}', [], i32_const(times) + call(1), types=[functype([I32], [])],
            functions=[(FIRST_TYPE, code(again)), (MAIN_TYPE, code(b''))], tables=[table(FUNCREF, limits(1))],
            elements=elements)


_plain_rows()
_block_rows()
_deep_rows()
_branch_rows()
_loop_rows()
_null_branch_rows()
_call_rows()
_recursion_rows()
_cut_rows()
_printing_rows()
_trap_rows()
_last_frame_rows()
