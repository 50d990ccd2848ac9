"""Runs with types below one another. What each comes to was worked out by hand, and the second reader agrees."""

from itertools import product

from assembler.encoding import signed
from assembler.instructions import (
    DROP, I32_ADD, RETURN, block, br_if, call, call_indirect, call_ref, cont_bind, cont_new, global_get, global_set,
    i32_const, i64_const, if_, local_get, local_set, on, on_switch, ref_func, ref_null, resume, select, suspend, switch,
    table_copy, table_fill, table_get, table_grow, table_init, table_set)
from assembler.modules import code, export, global_, module, table
from assembler.segments import (
    active_expressions_in, active_functions, declared_functions, passive_expressions)
from assembler.types import (
    FUNCREF, I32, I64, NOCONT, conttype, final_type, functype, limits, nullable, open_type, rec_group, ref)
from rows.decoding import spelled
from rows.runs import FIRST_TYPE, RunSection, main_module, printed, printer
from rows.switching_modules import PRINT, SwitchingModule

CALLS = RunSection('calls')
PRINTERS = RunSection('printers')
KEEPING = RunSection('keeping')
SWITCHING = RunSection('switching')

MISMATCH = ['err | trap call type mismatch', 'status 1']
GIVES = functype([], [I32])

# Types of functions that give a number: the top one, the middle one below it, the low one below that, a brother of the
# middle one, and an equal of it. Functions 1 to 5 are of these, and give 11 to 15.
NAMES = ['top', 'middle', 'low', 'brother', 'equal']
TOP, MIDDLE, LOW, BROTHER, EQUAL = range(FIRST_TYPE, FIRST_TYPE + 5)
TYPES = [
    open_type(GIVES), open_type(GIVES, TOP), final_type(GIVES, MIDDLE), final_type(GIVES, TOP), open_type(GIVES, TOP)]
NEXT = FIRST_TYPE + len(TYPES)
OF_TOP, OF_MIDDLE, OF_LOW, OF_BROTHER, OF_EQUAL = range(1, 6)
FUNCTIONS = [(FIRST_TYPE + number, code(i32_const(11 + number))) for number in range(5)]
BELOW = {
    'top': NAMES, 'middle': ['middle', 'low', 'equal'], 'low': ['low'], 'brother': ['brother'],
    'equal': ['middle', 'low', 'equal']}
IN_FRONT = active_functions([1, 2, 3, 4, 5])
ALL = {'types': TYPES, 'functions': FUNCTIONS, 'tables': [table(FUNCREF, limits(7))], 'elements': [IN_FRONT]}


def gives(*numbers):
    """The lines of a run that ends with these values."""
    first, *more = (f'| = {number}' for number in numbers)
    return [f'out {first}', *more]


def prints(*numbers):
    """The lines of a run that prints these numbers, and ends without a value."""
    first, *more = (f'| {number}' for number in numbers)
    return [f'out {first}', *more]


def indirect(place, function_type, index=0):
    return i32_const(place) + call_indirect(function_type, index)


def known(section, name, wanted, results, body, *more, **changed):
    """A run of a module of these functions and types, and what is changed in it."""
    section.known(name, wanted, main_module(results, body, *more, **ALL | changed))


def _indirect_rows():
    for named, called in product(range(5), repeat=2):
        fits = NAMES[called] in BELOW[NAMES[named]]
        known(CALLS, f'call_indirect/{NAMES[called]}-as-{NAMES[named]}', gives(11 + called) if fits else MISMATCH,
              [I32], indirect(called, FIRST_TYPE + named))
    for name, place, function_type in [('itself', 2, LOW), ('two-above', 2, TOP), ('below', 0, LOW)]:
        CALLS.counted_row(f'call_indirect/counted/{name}', main_module([I32], indirect(place, function_type), **ALL))
    undefined, null = ['err | trap undefined element', 'status 1'], ['err | trap null element', 'status 1']
    for name, wanted, place in [('past-the-end', undefined, 7), ('null', null, 5)]:
        known(CALLS, f'call_indirect/{name}', wanted, [I32], indirect(place, TOP))
    known(CALLS, 'call_indirect/printed-before-it-traps', ['out | 1', *MISMATCH], [I32], printed(1) + indirect(0, LOW),
          printing=['print_i32'], elements=[active_functions([2, 3, 4, 5, 6])])
    known(CALLS, 'call_indirect/a-plain-type-as-the-top', MISMATCH, [I32], indirect(0, TOP), types=[*TYPES, GIVES],
          functions=[(NEXT, code(i32_const(1)))], elements=[active_functions([1])])
    known(CALLS, 'call_indirect/the-top-as-a-plain-type', MISMATCH, [I32], indirect(0, NEXT), types=[*TYPES, GIVES])
    known(CALLS, 'call_indirect/a-plain-type-as-a-final-one', gives(1), [I32], indirect(0, NEXT + 1),
          types=[*TYPES, GIVES, final_type(GIVES)], functions=[(NEXT, code(i32_const(1)))],
          elements=[active_functions([1])])
    known(CALLS, 'call_indirect/all-as-the-top', gives(11, 12, 13, 14, 15), [I32] * 5,
          b''.join(indirect(place, TOP) for place in range(5)))


def _spelled_rows():
    """A call of function 1, spelled by digits: of the low type as the top one, and of the top type as the low one."""
    for name, wanted, functions, named in [
            ('low-as-top', gives(5), '00 01', '00'), ('top-as-low', MISMATCH, '00 00', '01')]:
        CALLS.known(f'call_indirect/spelled/{name}', wanted, spelled(
            f'01 0E 02 50 00 60 00 01 7F 4F 01 00 60 00 01 7F 03 03 02 {functions} 04 04 01 70 00 01 07 08 01 04 6D 61'
            f'69 6E 00 00 09 07 01 00 41 00 0B 01 01 0A 0E 02 07 00 41 00 11 {named} 00 0B 04 00 41 05 0B'))


def _chain_rows():
    """A chain of a hundred types, and calls along it."""
    chain = [open_type(GIVES), *(open_type(GIVES, FIRST_TYPE + number) for number in range(99))]
    for name, called, named in [
            ('the-last-as-the-first', 99, 0), ('the-first-as-the-last', 0, 99), ('the-last-as-the-one-before', 99, 98),
            ('the-one-before-as-the-last', 98, 99), ('one-within-as-another', 70, 30), ('the-other-way', 30, 70),
            ('one-as-itself', 50, 50)]:
        for group, types in [('', chain), ('-in-one-group', [rec_group(chain)])]:
            known(CALLS, f'chain{group}/{name}', gives(7) if called >= named else MISMATCH, [I32],
                  indirect(0, FIRST_TYPE + named), types=types,
                  functions=[(FIRST_TYPE + called, code(i32_const(7)))], elements=[active_functions([1])])


def _group_rows():
    """Two equal groups of a type and one below it, and one whose second type is below the first of the first group."""
    first, second, third = FIRST_TYPE, FIRST_TYPE + 2, FIRST_TYPE + 4
    groups = [rec_group([open_type(GIVES), final_type(GIVES, start)]) for start in (first, second, first)]
    for name, called, named, fits in [
            ('the-lower-of-one-as-the-upper-of-the-other', second + 1, first, True),
            ('the-lower-as-the-lower-of-the-other', second + 1, first + 1, True),
            ('the-upper-as-the-lower-of-the-other', second, first + 1, False),
            ('the-other-way', first + 1, second, True),
            ('the-lower-with-its-supertype-in-front-as-that', third + 1, first, True),
            ('the-lower-with-its-supertype-in-front-as-an-equal-of-that', third + 1, second, True),
            ('the-lower-with-its-supertype-in-front-as-the-lower', third + 1, first + 1, False),
            ('the-lower-with-its-supertype-in-front-as-the-upper-of-its-group', third + 1, third, False)]:
        known(CALLS, f'groups/{name}', gives(7) if fits else MISMATCH, [I32], indirect(0, named), types=groups,
              functions=[(called, code(i32_const(7)))], elements=[active_functions([1])])


def _reference_rows():
    """Calls of references, and functions that take more and give less than their supertype does."""
    for place, name in enumerate(NAMES, 1):
        known(CALLS, f'call_ref/{name}-as-top', gives(10 + place), [I32], ref_func(place) + call_ref(TOP))
    known(CALLS, 'call_ref/low-from-a-local-of-top', gives(13), [I32], ref_func(OF_LOW) + local_set(0) + local_get(0)
          + call_ref(TOP), [(1, nullable(TOP))])
    known(CALLS, 'call_ref/selected', gives(14, 13), [I32] * 2, b''.join(
        ref_func(OF_LOW) + ref_func(OF_BROTHER) + i32_const(number) + select(ref(TOP)) + call_ref(TOP)
        for number in (0, 1)))
    known(CALLS, 'call_ref/from-a-block', gives(13, 14), [I32] * 2, b''.join(
        i32_const(number) + if_(ref(TOP), ref_func(OF_LOW), ref_func(OF_BROTHER)) + call_ref(TOP) for number in (1, 0)))
    known(CALLS, 'call_ref/by-a-branch', gives(13), [I32], block(
        ref(TOP), ref_func(OF_LOW) + i32_const(1) + br_if(0) + DROP + ref_func(OF_TOP)) + call_ref(TOP))
    known(CALLS, 'a-block-of-a-type-with-a-supertype', gives(5), [I32], block(signed(LOW), i32_const(5)))
    wide, narrow = NEXT, NEXT + 1
    types = [*TYPES, open_type(functype([ref(LOW)], [ref(TOP)])), final_type(functype([ref(TOP)], [ref(LOW)]), wide)]
    functions = [*FUNCTIONS, (narrow, code(local_get(0) + call_ref(TOP) + DROP + ref_func(OF_LOW)))]
    changed = {'types': types, 'functions': functions, 'elements': [active_functions([1, 2, 3, 4, 5, 6])]}
    known(CALLS, 'wider-parameters-and-narrower-results/call_indirect', gives(13), [I32],
          ref_func(OF_LOW) + indirect(5, wide) + call_ref(TOP), **changed)
    known(CALLS, 'wider-parameters-and-narrower-results/call_ref', gives(13), [I32],
          ref_func(OF_LOW) + ref_func(6) + call_ref(wide) + call_ref(TOP), **changed)
    known(CALLS, 'wider-parameters-and-narrower-results/as-itself', gives(13), [I32],
          ref_func(OF_BROTHER) + indirect(5, narrow) + call_ref(LOW), **changed)


def _entry_rows():
    types = [open_type(functype([], [])), final_type(functype([], []), 0), open_type(GIVES), final_type(GIVES, 2)]
    for name, function_type in [('open', 2), ('with-a-supertype', 3)]:
        CALLS.known(f'main-of-a-type/{name}', gives(5), module(
            types=types, functions=[function_type], exports=[export('main', 'func', 0)], codes=[code(i32_const(5))]))
    for name, function_type in [('open', 0), ('with-a-supertype', 1)]:
        CALLS.known(f'start-of-a-type/{name}', gives(6), module(
            types=types, functions=[3, function_type], exports=[export('main', 'func', 0)], start=1,
            globals=[global_(I32, i32_const(5), mutable=True)],
            codes=[code(global_get(0)), code(i32_const(6) + global_set(0))]))


# A printer is of the type of its import: here of one of a chain of three, or of a plain one.
PRINTED = {
    'print_i32': (I32, i32_const(65), ['out | 65']), 'print_i64': (I64, i64_const(65), ['out | 65']),
    'print_byte': (I32, i32_const(65), ['out 41'])}
PLACES = {'top': 1, 'middle': 2, 'low': 3, 'plain': 4}


def with_printer(item, import_type, body, of=None):
    """A module that imports a printer, and whose main has this body."""
    taken = functype([PRINTED[item][0] if of is None else of], [])
    return module(
        types=[functype([], []), open_type(taken), open_type(taken, 1), final_type(taken, 2), taken],
        imports=[printer(item, import_type)], functions=[0], tables=[table(FUNCREF, limits(1))],
        exports=[export('main', 'func', 1)], elements=[active_functions([0])], codes=[code(body)])


def _printer_rows():
    for item, (_, given, shown) in PRINTED.items():
        for (name, import_type), (named, function_type) in product(PLACES.items(), repeat=2):
            fits = import_type == function_type or 4 not in (import_type, function_type) and (
                import_type > function_type)
            PRINTERS.known(f'{item}/of-{name}/as-{named}', shown if fits else MISMATCH, with_printer(
                item, import_type, given + indirect(0, function_type)))
        for name, import_type in PLACES.items():
            PRINTERS.known(f'{item}/of-{name}/call', shown, with_printer(item, import_type, given + call(0)))
        PRINTERS.known(f'{item}/of-low/call_ref-as-top', shown, with_printer(
            item, 3, given + ref_func(0) + call_ref(1)))
        for name, import_type in PLACES.items():
            PRINTERS.known(
                f'{item}/of-{name}-of-another-number', ['err | no printer 0', 'status 4'],
                with_printer(item, import_type, b'', I64 if item != 'print_i64' else I32))


def _global_rows():
    for name, value_type, body in [
            ('of-top', ref(TOP), call_ref(TOP)), ('of-middle', ref(MIDDLE), call_ref(TOP)),
            ('of-low-that-may-be-null', nullable(LOW), call_ref(MIDDLE))]:
        known(KEEPING, f'global/{name}', gives(13), [I32], global_get(0) + body,
              globals=[global_(value_type, ref_func(OF_LOW))])
    known(KEEPING, 'global/set', gives(11, 13, 14), [I32] * 3, global_get(0) + call_ref(TOP) + b''.join(
        ref_func(function) + global_set(0) + global_get(0) + call_ref(TOP) for function in (OF_LOW, OF_BROTHER)),
        globals=[global_(ref(TOP), ref_func(OF_TOP), mutable=True)])
    known(KEEPING, 'global/of-a-global', gives(13), [I32], global_get(1) + call_ref(TOP), globals=[
        global_(ref(LOW), ref_func(OF_LOW)), global_(ref(TOP), global_get(0))])


def _table_rows():
    """Elements keep the types of their functions, whatever the table's type is."""
    def tables(*value_types):
        return [table(nullable(value_type), limits(4)) for value_type in value_types]

    named = declared_functions([1, 2, 3, 4, 5])
    for name, wanted, function_type in [
            ('top', gives(13), TOP), ('middle', gives(13), MIDDLE), ('low', gives(13), LOW),
            ('brother', MISMATCH, BROTHER)]:
        known(KEEPING, f'table-of-top/low-as-{name}', wanted, [I32], indirect(0, function_type), tables=tables(TOP),
              elements=[active_expressions_in(0, nullable(LOW), [ref_func(OF_LOW)])])
        known(KEEPING, f'table-of-top/set/low-as-{name}', wanted, [I32], i32_const(1) + ref_func(OF_LOW)
              + table_set(0) + indirect(1, function_type), tables=tables(TOP), elements=[named])
        known(KEEPING, f'table-of-top/copied-from-one-of-low/low-as-{name}', wanted, [I32],
              i32_const(2) + i32_const(0) + i32_const(1) + table_copy(0, 1) + indirect(2, function_type),
              tables=tables(TOP, LOW), elements=[active_expressions_in(1, nullable(LOW), [ref_func(OF_LOW)])])
        known(KEEPING, f'table-of-top/from-a-segment-of-low/low-as-{name}', wanted, [I32],
              i32_const(2) + i32_const(0) + i32_const(1) + table_init(0, 0) + indirect(2, function_type),
              tables=tables(TOP), elements=[passive_expressions(ref(LOW), [ref_func(OF_LOW)])])
    known(KEEPING, 'table-of-top/get', gives(13), [I32], i32_const(0) + table_get(0) + call_ref(TOP),
          tables=tables(TOP), elements=[active_expressions_in(0, nullable(LOW), [ref_func(OF_LOW)])])
    known(KEEPING, 'table-of-top/filled', gives(13, 13), [I32] * 2, i32_const(1) + ref_func(OF_LOW) + i32_const(2)
          + table_fill(0) + indirect(1, LOW) + indirect(2, MIDDLE), tables=tables(TOP), elements=[named])
    known(KEEPING, 'table-of-top/grown', gives(4, 14), [I32] * 2, ref_func(OF_BROTHER) + i32_const(1) + table_grow(0)
          + indirect(4, BROTHER), tables=tables(TOP), elements=[named])
    known(KEEPING, 'table-of-low/as-brother', MISMATCH, [I32], indirect(0, BROTHER), tables=tables(LOW),
          elements=[active_expressions_in(0, nullable(LOW), [ref_func(OF_LOW)])])
    known(KEEPING, 'table-of-top/initial', gives(13, 13), [I32] * 2, indirect(0, LOW) + indirect(3, TOP),
          tables=[table(ref(TOP), limits(4), ref_func(OF_LOW))], elements=[named])


class Ladder(SwitchingModule):
    """A module of a function type that gives a number, of one below it, and of the continuations of both."""

    def __init__(self):
        super().__init__()
        self.top, self.low, self.cont_top, self.cont_low = self.ladder([], [I32])

    def ladder(self, parameters, results):
        """Such types for functions of these parameters and results."""
        arrow = functype(parameters, results)
        top = self.types.index_of(open_type(arrow))
        low = self.types.index_of(final_type(arrow, top))
        cont_top = self.types.index_of(open_type(conttype(top)))
        return top, low, cont_top, self.types.index_of(final_type(conttype(low), cont_top))


def _continuation_rows():
    module = Ladder()
    low = module.function_of(module.low, printed(1) + i32_const(12))
    takes = module.function([ref(module.cont_top)], [I32], local_get(0) + resume(module.cont_top))
    for name, made, resumed in [
            ('a-low-function-by-the-top-type', module.cont_top, resume(module.cont_top)),
            ('a-low-one-resumed-as-top', module.cont_low, resume(module.cont_top)),
            ('a-low-one-resumed-as-low', module.cont_low, resume(module.cont_low)),
            ('a-low-one-passed-as-top', module.cont_low, call(takes))]:
        SWITCHING.known(f'cont.new/{name}', ['out | 1', '| = 12'], module.main(
            [I32], ref_func(low) + cont_new(made) + resumed))
    made = ref_func(low) + cont_new(module.cont_low) + local_set(0)
    again = local_get(0) + resume(module.cont_top)
    SWITCHING.known('resume/twice-as-top', ['out | 1', 'err | trap consumed continuation', 'status 1'], module.main(
        [I32], made + again + DROP + again, [(1, nullable(module.cont_top))]))
    SWITCHING.known('resume/kept-in-a-table-of-top', ['out | 1', '| = 12'], module.main(
        [I32], i32_const(0) + ref_func(low) + cont_new(module.cont_low) + table_set(0) + i32_const(0) + table_get(0)
        + resume(module.cont_top), tables=[table(nullable(module.cont_top), limits(1))]))
    SWITCHING.known('resume/kept-in-a-global-of-top', ['out | 1', '| = 12'], module.main(
        [I32], ref_func(low) + cont_new(module.cont_low) + global_set(0) + global_get(0) + resume(module.cont_top),
        globals=[global_(nullable(module.cont_top), ref_null(NOCONT), mutable=True)]))


def _bound_rows():
    module = Ladder()
    _, low, cont_top, cont_low = module.ladder([I32, I32], [I32])
    function = module.function_of(low, local_get(0) + PRINT + local_get(0) + local_get(1) + I32_ADD)
    made = ref_func(function) + cont_new(cont_low)
    for name, target in [('as-top', module.cont_top), ('as-low', module.cont_low)]:
        SWITCHING.known(f'cont.bind/all-of-a-low-one/{name}', ['out | 7', '| = 15'], module.main(
            [I32], i32_const(7) + i32_const(8) + made + cont_bind(cont_top, target) + resume(module.cont_top)))
    one = module.ladder([I32], [I32])
    SWITCHING.known('cont.bind/one-and-one', ['out | 7', '| = 15'], module.main(
        [I32], i32_const(8) + i32_const(7) + made + cont_bind(cont_top, one[3]) + cont_bind(one[2], module.cont_low)
        + resume(module.cont_top)))


def _suspend_rows():
    """A suspend passes on a function of the low type, which is called as one of the top type, and gets its number."""
    module = Ladder()
    tag = module.tag([ref(module.top)], [I32])
    back = module.cont([I32], [I32])
    called = module.function_of(module.low, i32_const(12))
    asks = module.function_of(module.low, ref_func(called) + suspend(tag) + i32_const(1) + I32_ADD)
    for name, made in [('top', module.cont_top), ('low', module.cont_low)]:
        caught = block(module.arrow([], [ref(module.top), ref(back)]), ref_func(asks) + cont_new(made) + resume(
            module.cont_top, on(tag, 0)) + RETURN)
        SWITCHING.known(f'suspend/a-low-function-from-a-{name}-continuation', gives(13), module.main(
            [I32], caught + local_set(0) + call_ref(module.top) + local_get(0) + resume(back), [(1, nullable(back))]))
    module = Ladder()
    module.sections['tags'].append(module.low)
    asks = module.function_of(module.low, suspend(0) + i32_const(1) + I32_ADD)
    back = module.cont([I32], [I32])
    caught = block(ref(back), ref_func(asks) + cont_new(module.cont_low) + resume(module.cont_top, on(0, 0)) + RETURN)
    SWITCHING.known('suspend/by-a-tag-of-a-type-with-a-supertype', gives(6), module.main(
        [I32], caught + local_set(0) + i32_const(5) + local_get(0) + resume(back), [(1, nullable(back))]))
    module = Ladder()
    tag = module.tag([], [ref(module.top)])
    top_taker = module.func([ref(module.low)], [I32])
    back = module.types.index_of(conttype(top_taker))
    called = module.function_of(module.low, i32_const(12))
    asks = module.function_of(module.low, suspend(tag) + call_ref(module.top))
    caught = block(ref(back), ref_func(asks) + cont_new(module.cont_low) + resume(module.cont_top, on(tag, 0)) + RETURN)
    SWITCHING.known('suspend/whose-continuation-takes-the-low-type', gives(12), module.main(
        [I32], caught + local_set(0) + ref_func(called) + local_get(0) + resume(back), [(1, nullable(back))]))


def _switch_rows():
    """Continuations that take one of their own type, and others below these."""
    module = SwitchingModule()
    top = module.types.count
    module.types.add(open_type(functype([nullable(top + 1)], [])), open_type(conttype(top)))
    low = module.types.index_of(final_type(functype([nullable(top + 1)], []), top))
    cont_top, cont_low = top + 1, module.types.index_of(final_type(conttype(low), top + 1))
    tag = module.tag()
    for name, behind, shown in [
            ('that-ends', b'', [21, 30]),
            ('that-switches-back', local_get(0) + switch(cont_top, tag) + DROP, [21, 11, 30])]:
        other = module.function_of(low, printed(21) + behind)
        first = module.function_of(top, ref_func(other) + cont_new(cont_low) + switch(cont_top, tag) + DROP
                                   + printed(11))
        SWITCHING.known(f'switch/to-a-low-one-{name}', prints(*shown), module.main(
            [], ref_null(NOCONT) + ref_func(first) + cont_new(cont_top) + resume(cont_top, on_switch(tag))
            + printed(30)))


_indirect_rows()
_spelled_rows()
_chain_rows()
_group_rows()
_reference_rows()
_entry_rows()
_printer_rows()
_global_rows()
_table_rows()
_continuation_rows()
_bound_rows()
_suspend_rows()
_switch_rows()
