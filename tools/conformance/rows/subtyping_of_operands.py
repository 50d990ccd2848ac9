"""Where types match by supertypes: each place that wants a type, below and above which another one stands."""

from itertools import product
from typing import NamedTuple

from assembler.encoding import signed
from assembler.instructions import (
    DROP, REF_AS_NON_NULL, RETURN, UNREACHABLE, block, br, br_if, br_on_non_null, br_on_null, br_table, call,
    call_indirect, call_ref, cont_bind, cont_new, global_get, global_set, i32_const, if_, local_get, local_set,
    local_tee, loop, on, on_switch, ref_func, ref_null, resume, select, suspend, switch, table_copy, table_fill,
    table_get, table_grow, table_init, table_set)
from assembler.modules import as_func, as_global, as_table, code, global_, imported, module, table
from assembler.segments import (
    active_expressions_in, active_functions, declared_expressions, declared_functions, passive_expressions)
from assembler.types import (
    EMPTY, FUNC, FUNCREF, I32, NOFUNC, conttype, final_type, functype, limits, nullable, open_type, ref)
from rows.samples import EMPTY_FUNC
from rows.sections import ModuleSection, VALID, local_gets

OPERANDS = ModuleSection('operands')
CONSTANTS = ModuleSection('constants')
SWITCHING = ModuleSection('switching')
INVALID_FUNCTION = 'invalid function 0'

# Types below one another: the top one, the middle one below it, the low one below that, a brother of the middle one,
# and an equal of the middle one; and as many continuation types, one of each function, that stand alike.
TOP, MIDDLE, LOW, BROTHER, EQUAL, CONT_TOP, CONT_MIDDLE, CONT_LOW, CONT_BROTHER, CONT_EQUAL = range(10)
TYPES = [
    open_type(EMPTY_FUNC), open_type(EMPTY_FUNC, TOP), final_type(EMPTY_FUNC, MIDDLE), final_type(EMPTY_FUNC, TOP),
    open_type(EMPTY_FUNC, TOP), open_type(conttype(TOP)), open_type(conttype(MIDDLE), CONT_TOP),
    final_type(conttype(LOW), CONT_MIDDLE), final_type(conttype(BROTHER), CONT_TOP),
    open_type(conttype(EQUAL), CONT_TOP)]
NEXT = len(TYPES)           # the first type behind these
IN_NEXT = signed(NEXT)      # the block type of it
ZERO = i32_const(0)


class Given(NamedTuple):
    """What stands where the middle type is wanted, and whether it fits."""

    name: str
    fits: bool
    function: int
    continuation: int


GIVEN = [
    Given('the-same', True, MIDDLE, CONT_MIDDLE), Given('an-equal-one', True, EQUAL, CONT_EQUAL),
    Given('a-subtype', True, LOW, CONT_LOW), Given('a-supertype', False, TOP, CONT_TOP),
    Given('a-brother', False, BROTHER, CONT_BROTHER)]
FUNCTIONS = [('function', MIDDLE)]
BOTH = [('function', MIDDLE), ('continuation', CONT_MIDDLE)]


def function(parameters, results, body, local_runs=(), types=(), functions=(), **sections):
    """A module with a function of these parameters and results. There may be types in front of its own, and functions
    of types behind it."""
    return module(
        types=[*TYPES, *types, functype(parameters, results)], functions=[NEXT + len(types), *functions],
        codes=[code(body, local_runs), *[code(UNREACHABLE)] * len(functions)], **sections)


def places(section, name, made, kinds=tuple(BOTH), refused=INVALID_FUNCTION):
    """Modules made of the type that is wanted and of one that is given, for each that may be given."""
    for kind, wanted in kinds:
        for given in GIVEN:
            section.row(
                f'{name}/{kind}/{given.name}', VALID if given.fits else refused, made(wanted, getattr(given, kind)))


def operand(name, made, kinds=tuple(BOTH)):
    """Functions of which something gives the one type where the other is wanted."""
    places(OPERANDS, name, made, kinds)


# Results, calls and variables.
operand('result', lambda wanted, given: function([ref(given)], [ref(wanted)], local_get(0)))
operand('result-that-may-be-null', lambda wanted, given: function([nullable(given)], [nullable(wanted)], local_get(0)))
operand('result-that-is-not-null', lambda wanted, given: function([ref(given)], [nullable(wanted)], local_get(0)))
operand('return', lambda wanted, given: function([ref(given)], [ref(wanted)], local_get(0) + RETURN))
operand('call/parameter', lambda wanted, given: function(
    [ref(given)], [], local_get(0) + call(1), types=[functype([ref(wanted)], [])], functions=[NEXT]))
operand('call/result', lambda wanted, given: function(
    [], [ref(wanted)], call(1), types=[functype([], [ref(given)])], functions=[NEXT]))
operand('call_indirect/parameter', lambda wanted, given: function(
    [ref(given)], [], local_get(0) + ZERO + call_indirect(NEXT, 0), types=[functype([ref(wanted)], [])],
    tables=[table(FUNCREF, limits(1))]))
operand('call_ref/parameter', lambda wanted, given: function(
    [ref(given), ref(NEXT)], [], local_gets(2) + call_ref(NEXT), types=[functype([ref(wanted)], [])]))
operand('call_ref/callee', lambda wanted, given: function(
    [nullable(given)], [], local_get(0) + call_ref(wanted)), FUNCTIONS)
operand('ref.func', lambda wanted, given: function(
    [], [ref(wanted)], ref_func(1), functions=[given], elements=[declared_functions([1])]), FUNCTIONS)
operand('ref.func/of-an-import', lambda wanted, given: function(
    [], [ref(wanted)], ref_func(0), imports=[imported(as_func(given))], elements=[declared_functions([0])]), FUNCTIONS)
operand('ref.null', lambda wanted, given: function([], [nullable(wanted)], ref_null(given)))
operand('ref.as_non_null', lambda wanted, given: function(
    [nullable(given)], [ref(wanted)], local_get(0) + REF_AS_NON_NULL))
operand('select/first', lambda wanted, given: function(
    [ref(given)], [], local_get(0) + ref_null(wanted) + ZERO + select(nullable(wanted)) + DROP))
operand('select/second', lambda wanted, given: function(
    [ref(given)], [], ref_null(wanted) + local_get(0) + ZERO + select(nullable(wanted)) + DROP))
operand('select/what-it-gives', lambda wanted, given: function(
    [ref(given)], [ref(wanted)], local_get(0) * 2 + ZERO + select(ref(given))))
operand('local.set', lambda wanted, given: function(
    [ref(given)], [], local_get(0) + local_set(1), [(1, nullable(wanted))]))
operand('local.tee', lambda wanted, given: function(
    [ref(given)], [ref(wanted)], local_get(0) + local_tee(1), [(1, ref(wanted))]))
operand('global.set', lambda wanted, given: function(
    [ref(given)], [], local_get(0) + global_set(0),
    globals=[global_(nullable(wanted), ref_null(wanted), mutable=True)]))
operand('global.get', lambda wanted, given: function(
    [], [ref(wanted)], global_get(0), imports=[imported(as_global(ref(given)))]))
for name, local_runs in [('local.tee', [(1, nullable(MIDDLE))]), ('local.set', [(1, nullable(MIDDLE))])]:
    kept = local_get(0) + (local_tee(1) if name == 'local.tee' else local_set(1) + local_get(1))
    for result, fits in [(TOP, True), (MIDDLE, True), (LOW, False)]:
        OPERANDS.row(f'{name}/a-low-one-is-of-the-middle-type/for-type-{result}', VALID if fits else INVALID_FUNCTION,
                     function([nullable(LOW)], [nullable(result)], kept, local_runs))

# Blocks and branches.
for name, made in [('block', block), ('loop', loop)]:
    operand(f'{name}/result', lambda wanted, given, made=made: function(
        [ref(given)], [ref(wanted)], made(ref(wanted), local_get(0))))
    operand(f'{name}/parameter', lambda wanted, given, made=made: function(
        [ref(given)], [], local_get(0) + made(IN_NEXT, DROP), types=[functype([ref(wanted)], [])]))
operand('if/result', lambda wanted, given: function(
    [ref(given)], [ref(wanted)], ZERO + if_(ref(wanted), local_get(0), local_get(0))))
operand('if/result-of-the-else', lambda wanted, given: function(
    [ref(given)], [ref(wanted)], ZERO + if_(ref(wanted), UNREACHABLE, local_get(0))))
operand('if/without-an-else', lambda wanted, given: function(
    [ref(given)], [ref(wanted)], local_get(0) + ZERO + if_(IN_NEXT, UNREACHABLE),
    types=[functype([ref(given)], [ref(wanted)])]))
operand('br', lambda wanted, given: function([ref(given)], [ref(wanted)], block(ref(wanted), local_get(0) + br(0))))
operand('br/to-a-loop', lambda wanted, given: function(
    [ref(wanted), ref(given)], [], local_get(0) + loop(IN_NEXT, DROP + local_get(1) + br(0)),
    types=[functype([ref(wanted)], [])]))
operand('br_if', lambda wanted, given: function(
    [ref(given)], [ref(wanted)], block(ref(wanted), local_get(0) + ZERO + br_if(0))))
operand('br_table', lambda wanted, given: function(
    [ref(given)], [ref(FUNC)],
    block(ref(FUNC), block(ref(wanted), local_get(0) + ZERO + br_table([0], 1)))), FUNCTIONS)
operand('br_table/the-default', lambda wanted, given: function(
    [ref(given)], [ref(FUNC)],
    block(ref(wanted), block(ref(FUNC), local_get(0) + ZERO + br_table([0], 1)) + UNREACHABLE)), FUNCTIONS)
operand('br_on_null/beneath', lambda wanted, given: function(
    [ref(given), FUNCREF], [ref(wanted)], block(ref(wanted), local_gets(2) + br_on_null(0) + DROP)))
operand('br_on_null/what-it-gives', lambda wanted, given: function(
    [nullable(given)], [ref(wanted)], block(EMPTY, local_get(0) + br_on_null(0) + RETURN) + UNREACHABLE))
operand('br_on_non_null', lambda wanted, given: function(
    [nullable(given)], [ref(wanted)], block(ref(wanted), local_get(0) + br_on_non_null(0) + UNREACHABLE)))
operand('br_on_non_null/beneath', lambda wanted, given: function(
    [ref(given), FUNCREF], [], block(IN_NEXT, local_gets(2) + br_on_non_null(0) + UNREACHABLE) + DROP + DROP,
    types=[functype([], [ref(wanted), ref(FUNC)])]))
operand('unreached', lambda wanted, given: function([ref(given)], [ref(wanted)], UNREACHABLE + local_get(0)))
operand('unreached/ref.as_non_null', lambda wanted, given: function(
    [nullable(given)], [ref(wanted)], UNREACHABLE + local_get(0) + REF_AS_NON_NULL))

# What branches that aren't taken leave is of the type of their label, and not of what was given.
for name, label, behind, left in [
        ('br_if', ref(MIDDLE), ZERO + br_if(0), 1), ('br_on_null', ref(MIDDLE), local_get(1) + br_on_null(0) + DROP, 1),
        ('br_on_non_null', IN_NEXT, local_get(1) + br_on_non_null(0), 2)]:
    for result, fits in [(TOP, True), (MIDDLE, True), (LOW, False)]:
        OPERANDS.row(
            f'{name}/a-low-one-is-of-the-middle-type/for-type-{result}', VALID if fits else INVALID_FUNCTION, function(
                [ref(LOW), FUNCREF], [], block(label, local_get(0) + behind + local_set(2) + UNREACHABLE) + DROP * left,
                [(1, nullable(result))], types=[functype([], [ref(MIDDLE), ref(FUNC)])]))

# Tables.
operand('table.set', lambda wanted, given: function(
    [ref(given)], [], ZERO + local_get(0) + table_set(0), tables=[table(nullable(wanted), limits(1))]))
operand('table.get', lambda wanted, given: function(
    [], [nullable(wanted)], ZERO + table_get(0), tables=[table(nullable(given), limits(1))]))
operand('table.fill', lambda wanted, given: function(
    [ref(given)], [], ZERO + local_get(0) + ZERO + table_fill(0), tables=[table(nullable(wanted), limits(1))]))
operand('table.grow', lambda wanted, given: function(
    [ref(given)], [I32], local_get(0) + ZERO + table_grow(0), tables=[table(nullable(wanted), limits(1))]))
operand('table.copy', lambda wanted, given: function(
    [], [], ZERO * 3 + table_copy(0, 1),
    tables=[table(nullable(wanted), limits(1)), table(nullable(given), limits(1))]))
operand('table.init', lambda wanted, given: function(
    [], [], ZERO * 3 + table_init(0, 0), tables=[table(nullable(wanted), limits(1))],
    elements=[passive_expressions(nullable(given), [ref_null(given)])]))
for given in GIVEN:
    OPERANDS.row(f'call_indirect/by-a-table-of/{given.name}', VALID, function(
        [], [], ZERO + call_indirect(MIDDLE, 0), tables=[table(nullable(given.function), limits(1))]))
    OPERANDS.row(f'call_indirect/by-a-table-of/{given.name}-of-continuations', INVALID_FUNCTION, function(
        [], [], ZERO + call_indirect(MIDDLE, 0), tables=[table(nullable(given.continuation), limits(1))]))


# Constant expressions: of globals, tables and element segments.


def constant(name, item, made, kinds=tuple(BOTH)):
    """Modules of which this item is refused where the type given doesn't fit. The first import is a global of that
    type."""
    def whole(wanted, given):
        sections = {'imports': [imported(as_global(ref(given)))]} | made(wanted, given)
        return module(types=TYPES, **sections)

    places(CONSTANTS, name, whole, kinds, f'invalid {item}')


def with_function(given, **sections):
    """Sections of a module whose function 0 is of the type given."""
    return {'functions': [given], 'codes': [code(UNREACHABLE)]} | sections


constant('global', 'global 0', lambda wanted, given: {'globals': [global_(ref(wanted), global_get(0))]})
constant('global/variable', 'global 0', lambda wanted, given: {
    'globals': [global_(nullable(wanted), global_get(0), mutable=True)]})
constant('global/null', 'global 0', lambda wanted, given: {'globals': [global_(nullable(wanted), ref_null(given))]})
constant('global/function', 'global 0', lambda wanted, given: with_function(
    given, globals=[global_(ref(wanted), ref_func(0))]), FUNCTIONS)
constant('global/of-a-global', 'global 1', lambda wanted, given: {
    'globals': [global_(ref(given), global_get(0)), global_(ref(wanted), global_get(1))]})
constant('table', 'table 0', lambda wanted, given: {'tables': [table(ref(wanted), limits(1), global_get(0))]})
constant('table/function', 'table 0', lambda wanted, given: with_function(
    given, tables=[table(ref(wanted), limits(1), ref_func(0))]), FUNCTIONS)
constant('element/item', 'element 0', lambda wanted, given: {
    'elements': [passive_expressions(ref(wanted), [global_get(0)])]})
constant('element/second-item', 'element 0', lambda wanted, given: {
    'elements': [passive_expressions(nullable(wanted), [ref_null(wanted), global_get(0)])]})
constant('element/declarative-item', 'element 0', lambda wanted, given: {
    'elements': [declared_expressions(ref(wanted), [global_get(0)])]})
constant('element/function', 'element 0', lambda wanted, given: with_function(
    given, elements=[passive_expressions(ref(wanted), [ref_func(0)])]), FUNCTIONS)
constant('element/for-a-table', 'element 0', lambda wanted, given: {
    'tables': [table(nullable(wanted), limits(1))],
    'elements': [active_expressions_in(0, ref(given), [global_get(0)])]})
constant('element/for-an-imported-table', 'element 0', lambda wanted, given: {
    'imports': [imported(as_table(nullable(wanted), limits(1)))],
    'elements': [active_expressions_in(0, nullable(given), [ref_null(given)])]})
for given in GIVEN:
    CONSTANTS.row(f'element/listed-functions-for-a-table-of-functions/{given.name}', VALID, module(types=TYPES, **(
        with_function(given.function, tables=[table(FUNCREF, limits(1))], elements=[active_functions([0])]))))
    CONSTANTS.row(
        f'element/listed-functions-for-a-table-of-the-middle-type/{given.name}', 'invalid element 0', module(
            types=TYPES, **with_function(
                given.function, tables=[table(nullable(MIDDLE), limits(1))], elements=[active_functions([0])])))
CONSTANTS.row('start-of-a-type-with-a-supertype', VALID, module(types=TYPES, start=0, **with_function(LOW)))

# Stack switching.


def switching(name, made, kinds=tuple(BOTH)):
    places(SWITCHING, name, made, kinds)


CONTINUATIONS = [('continuation', CONT_MIDDLE)]
switching('cont.new/of-a-function', lambda wanted, given: function(
    [nullable(given)], [ref(CONT_MIDDLE)], local_get(0) + cont_new(CONT_MIDDLE)), FUNCTIONS)
switching('cont.new/of-ref.func', lambda wanted, given: function(
    [], [ref(CONT_MIDDLE)], ref_func(1) + cont_new(CONT_MIDDLE), functions=[given],
    elements=[declared_functions([1])]), FUNCTIONS)
switching('cont.new/what-it-gives', lambda wanted, given: function(
    [], [ref(wanted)], ref_null(NOFUNC) + cont_new(given)), CONTINUATIONS)
switching('cont.bind/continuation', lambda wanted, given: function(
    [nullable(given)], [ref(wanted)], local_get(0) + cont_bind(wanted, wanted)), CONTINUATIONS)
switching('cont.bind/what-it-gives', lambda wanted, given: function(
    [nullable(CONT_MIDDLE)], [ref(wanted)], local_get(0) + cont_bind(CONT_MIDDLE, given)), CONTINUATIONS)
switching('cont.bind/what-is-bound', lambda wanted, given: function(
    [ref(given), ref(NEXT + 1)], [ref(CONT_MIDDLE)], local_gets(2) + cont_bind(NEXT + 1, CONT_MIDDLE),
    types=[functype([ref(wanted)], []), conttype(NEXT)]))
switching('cont.bind/what-is-left', lambda wanted, given: function(
    [ref(NEXT + 1)], [ref(NEXT + 3)], local_get(0) + cont_bind(NEXT + 1, NEXT + 3),
    types=[functype([ref(wanted)], []), conttype(NEXT), functype([ref(given)], []), conttype(NEXT + 2)]))
switching('cont.bind/results', lambda wanted, given: function(
    [ref(NEXT + 1)], [ref(NEXT + 3)], local_get(0) + cont_bind(NEXT + 1, NEXT + 3),
    types=[functype([], [ref(given)]), conttype(NEXT), functype([], [ref(wanted)]), conttype(NEXT + 2)]))
switching('resume/continuation', lambda wanted, given: function(
    [nullable(given)], [], local_get(0) + resume(wanted)), CONTINUATIONS)
switching('resume/parameter', lambda wanted, given: function(
    [ref(given), ref(NEXT + 1)], [], local_gets(2) + resume(NEXT + 1),
    types=[functype([ref(wanted)], []), conttype(NEXT)]))
switching('resume/result', lambda wanted, given: function(
    [ref(NEXT + 1)], [ref(wanted)], local_get(0) + resume(NEXT + 1),
    types=[functype([], [ref(given)]), conttype(NEXT)]))
switching('suspend/parameter', lambda wanted, given: function(
    [ref(given)], [], local_get(0) + suspend(0), types=[functype([ref(wanted)], [])], tags=[NEXT]))
switching('suspend/result', lambda wanted, given: function(
    [], [ref(wanted)], suspend(0), types=[functype([], [ref(given)])], tags=[NEXT]))


def caught(tag, label, suspended, resumed):
    """A function that resumes a continuation of such results under a clause for a tag of such a type, whose label takes
    these and a continuation of such a type."""
    types = [functype(*tag), functype(*suspended), conttype(NEXT + 1), functype([], resumed), conttype(NEXT + 3),
             functype([], [*label, ref(NEXT + 2)])]
    body = block(signed(NEXT + 5), local_get(0) + resume(NEXT + 4, on(0, 0)) + DROP * len(resumed) + UNREACHABLE)
    return function([ref(NEXT + 4)], [], body + DROP * (len(label) + 1), types=types, tags=[NEXT])


switching('on/what-the-tag-takes', lambda wanted, given: caught(([ref(given)], []), [ref(wanted)], ([], []), []))
switching('on/what-the-tag-gives', lambda wanted, given: caught(([], [ref(wanted)]), [], ([ref(given)], []), []))
switching('on/results', lambda wanted, given: caught(([], []), [], ([], [ref(wanted)]), [ref(given)]))


def let_pass(tag_results, results):
    """A function that resumes a continuation of such results under a clause that lets a switch pass, for a tag that
    gives such values. They are to be equal."""
    types = [functype([], tag_results), functype([], results), conttype(NEXT + 1)]
    return function([ref(NEXT + 2)], [], local_get(0) + resume(NEXT + 2, on_switch(0)) + DROP * len(results),
                    types=types, tags=[NEXT])


for kind, types in [
        ('function', (TOP, MIDDLE, LOW, BROTHER, EQUAL)),
        ('continuation', (CONT_TOP, CONT_MIDDLE, CONT_LOW, CONT_BROTHER, CONT_EQUAL))]:
    names = dict(zip(types, ['top', 'middle', 'low', 'brother', 'equal']))
    for one, other in product(types, repeat=2):
        fits = one == other or {names[one], names[other]} == {'middle', 'equal'}
        SWITCHING.row(
            f'on-switch/{kind}/{names[one]}-and-{names[other]}', VALID if fits else INVALID_FUNCTION,
            let_pass([ref(one)], [ref(other)]))
SWITCHING.row('on-switch/nullable-and-not', INVALID_FUNCTION, let_pass([nullable(MIDDLE)], [ref(MIDDLE)]))
SWITCHING.row('on-switch/equal-in-each-place', VALID, let_pass([ref(MIDDLE), ref(LOW)], [ref(EQUAL), ref(LOW)]))
SWITCHING.row('on-switch/a-subtype-in-the-second-place', INVALID_FUNCTION, let_pass(
    [ref(MIDDLE), ref(MIDDLE)], [ref(EQUAL), ref(LOW)]))


def switched(given, operands=(), target=(), tag=(), taken=(), back=()):
    """A function that switches: what it is given in front of the continuation, what the target takes in front of the
    continuation of the one that switches, what the tag gives, and the results of both; and what it gives itself."""
    types = [functype(taken, back), conttype(NEXT), functype([*operands, ref(NEXT + 1)], target), conttype(NEXT + 2),
             functype([], tag)]
    parameters = [*given, ref(NEXT + 3)]
    return function(parameters, taken, local_gets(len(parameters)) + switch(NEXT + 3, 0), types=types, tags=[NEXT + 4])


switching('switch/parameter', lambda wanted, given: switched([ref(given)], operands=[ref(wanted)]))
switching('switch/results-of-the-target', lambda wanted, given: switched(
    [], target=[ref(given)], tag=[ref(wanted)], back=[ref(wanted)]))
switching('switch/results-of-the-tag', lambda wanted, given: switched(
    [], target=[ref(given)], tag=[ref(given)], back=[ref(wanted)]))
switching('switch/what-it-gives', lambda wanted, given: function(
    [ref(NEXT + 3)], [ref(wanted)], local_get(0) + switch(NEXT + 3, 0), tags=[NEXT + 4], types=[
        functype([ref(given)], []), conttype(NEXT), functype([ref(NEXT + 1)], []), conttype(NEXT + 2),
        functype([], [])]))
# The target is of a type that takes the continuation of the one that switches, or of one below that.
TARGETS = [open_type(functype([nullable(CONT_MIDDLE)], [])), open_type(conttype(NEXT)),
           final_type(functype([nullable(CONT_TOP)], []), NEXT), final_type(conttype(NEXT + 2), NEXT + 1)]
for name, fits, given, named in [
        ('the-same', True, NEXT + 1, NEXT + 1), ('a-subtype', True, NEXT + 3, NEXT + 1),
        ('a-supertype', False, NEXT + 1, NEXT + 3), ('the-subtype-itself', True, NEXT + 3, NEXT + 3)]:
    SWITCHING.row(f'switch/target/{name}', VALID if fits else INVALID_FUNCTION, function(
        [nullable(given)], [], local_get(0) + switch(named, 0), types=TARGETS, tags=[MIDDLE]))
for kind, index in [('function', TOP), ('function-below', LOW)]:
    SWITCHING.row(f'tag-of-a-{kind}', VALID, module(types=TYPES, tags=[index]))
SWITCHING.row('tag-of-a-continuation-below', 'invalid tag 0', module(types=TYPES, tags=[CONT_LOW]))
