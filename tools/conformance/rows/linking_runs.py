"""Runs of several files: start functions, in whose instance a run goes on, types of other files, limits, and runs that
are cut at each reduction."""

from itertools import product

from assembler.instructions import (
    DROP, I32_ADD, I32_EQZ, REF_IS_NULL, RETURN, UNREACHABLE, block, br, br_if, call, call_indirect, call_ref,
    cont_bind, cont_new, global_get, global_set, i32_const, i64_const, if_, local_get, local_set, local_tee, loop,
    memory_size, on, on_switch, ref_func, ref_null, resume, return_call, return_call_indirect, return_call_ref,
    select, suspend, table_get, table_size)
from assembler.segments import active_expressions_in, active_functions
from assembler.types import EMPTY, FUNCREF, I32, I64, final_type, functype, limits, nullable, open_type, ref
from rows.linking_samples import File, LinkSection, gives, says, trap, written
from rows.linking_switching import Handler, SwitchFile, tags_and_suspends
from rows.runs import printed
from rows.switching_modules import LESS

STARTS = LinkSection('start functions')
INSTANCES = LinkSection('instances')
TYPES = LinkSection('types')
SUBTYPES = LinkSection('subtypes')
LIMITS = LinkSection('limits of runs')
STEPS = LinkSection('steps')

ONE = i32_const(1)
MISMATCH = trap('call type mismatch')


def starting(number, body=b''):
    """A file whose start function prints a number and does this."""
    file = File()
    file.printer()
    file.start = file.function([], [], printed(number) + body, name='start')
    return file.bytes()


def starting_main():
    """A file whose start function prints 30, and whose main prints 40 and gives 5."""
    file = File()
    file.printer()
    file.start = file.function([], [], printed(30))
    return file.main([I32], printed(40) + i32_const(5))


def _start_rows():
    """Start functions one after another, and then main; of some files, and such that trap."""
    last = starting_main()
    STARTS.row('one-after-another', starting(10), starting(20), last, wanted=written(10, 20, 30, 40, '= 5'))
    STARTS.told('one-after-another/with-statistics', starting(10), starting(20), last)
    STARTS.row('none-in-the-middle', starting(10), File().bytes(), last, wanted=written(10, 30, 40, '= 5'))
    STARTS.row('the-last-alone', File().bytes(), File().bytes(), last, wanted=written(30, 40, '= 5'))
    STARTS.row('the-first-alone', starting(10), File().main([I32], i32_const(6)), wanted=written(10, '= 6'))
    for place in range(3):
        files = [starting(10), starting(20), starting(30)]
        files[place] = starting(10 * (place + 1), UNREACHABLE)
        shown = [10, 20, 30][:place + 1]
        STARTS.row(f'file-{place}-traps', *files, last, wanted=trap('unreachable', *shown))
        STARTS.told(f'file-{place}-traps/with-statistics', *files, last)


def _other_start_rows():
    """Start functions that are imported, of one file that is given twice, with one variable, and without an end."""
    last = starting_main()
    imported = File(functype([I64], []))
    imported.printer()
    imported.start = imported.take_function('m0', 'start')
    STARTS.row('an-imported-one', starting(10), imported.main([], printed(40)), wanted=written(10, 10, 40))
    STARTS.call('of-one-file-given-twice', ['a', 'a', 'b'], {'a': starting(10), 'b': last}, written(
        10, 10, 30, 40, '= 5'))
    shared = File()
    shared.memory(limits(1), name='memory')
    shared.variable(I32, i32_const(1), name='variable')
    added = global_get(0) + global_get(0) + I32_ADD + global_set(0)
    shared.start = shared.function([], [], added)
    second = File()
    second.take('m0', 'variable', 'global', I32, True)
    second.start = second.function([], [], global_get(0) + i32_const(10) + I32_ADD + global_set(0))
    STARTS.row('what-each-does-is-there', shared.bytes(), second.bytes(), second.main([I32], global_get(0)),
               wanted=gives(22))
    waiting = File()
    tag = waiting.tag()
    waiting.start = waiting.function([], [], suspend(tag))
    STARTS.row('that-suspends', starting(10), waiting.main(), wanted=trap('unhandled 0', 10))
    endless = File()
    endless.start = endless.function([], [], loop(EMPTY, br(0)))
    last = endless.main()
    for steps in (0, 1, 6, 7, 50):
        STARTS.row(f'that-does-not-end/{steps}-reductions', starting(10), last, steps=steps)
    STARTS.each_step('three', starting(1), starting(2), starting_main())


class Getter(File):
    """A file with a variable and a memory of its own, and functions that give what is in its variable."""

    def __init__(self, value, others=0):
        super().__init__(*[functype([I64] * (count + 1), []) for count in range(others)])
        self.printer()
        self.variable(I32, i32_const(value))
        self.memory(limits(value // 100))
        self.fresh_type, self.left_type = self.cont([], [I32]), self.cont([I32], [I32])
        tag = self.tag([], [I32], name='ask')
        self.function([], [I32], global_get(0), name='get')
        self.function([], [I32], suspend(tag) + global_get(0) + I32_ADD, name='asking')
        self.function([], [I32], memory_size(0), name='size')


FIRST, SECOND = Getter(100), Getter(200, 2)


class Asker(File):
    """A third file, with a variable, a memory and a table of its own, that imports functions of both."""

    def __init__(self):
        super().__init__(*[functype([I64] * (count + 2), [I64]) for count in range(4)])
        self.printer()
        self.arrow_type = self.func([], [I32])
        self.get = [self.take_function(f'm{number}', 'get', [], [I32]) for number in range(2)]
        self.asking = [self.take_function(f'm{number}', 'asking', [], [I32]) for number in range(2)]
        self.size = [self.take_function(f'm{number}', 'size', [], [I32]) for number in range(2)]
        self.ask = [self.take_tag(f'm{number}', 'ask', [], [I32]) for number in range(2)]
        self.fresh_type, self.left_type = self.cont([], [I32]), self.cont([I32], [I32])
        self.variable(I32, i32_const(900))
        self.memory(limits(9))
        self.table(FUNCREF, limits(2))
        self.elements(active_functions(self.get))

    def caught(self, number, behind):
        """Resume a continuation of a function that asks; where the clause leads, go on with what is behind, with the
        continuation on top."""
        inside = self.ref(self.asking[number]) + cont_new(self.fresh_type) + resume(
            self.fresh_type, on(self.ask[number], 0)) + br(1)
        return block(self.arrow([], [I32]), block(self.arrow([], [ref(self.left_type)]), inside) + behind)


def _instance_rows():
    """Where a run goes on behind calls and continuations of other files: what is there by index is the file's own."""
    def given(asker, name, number):
        get = asker.get[number]
        through = asker.function([], [I32], return_call(get))
        through_table = asker.function([], [I32], i32_const(number) + return_call_indirect(asker.arrow_type, 0))
        through_reference = asker.function([], [I32], asker.ref(get) + return_call_ref(asker.arrow_type))
        return {
            'call': call(get), 'call_indirect': i32_const(number) + call_indirect(asker.arrow_type, 0),
            'call_ref': asker.ref(get) + call_ref(asker.arrow_type), 'return_call': call(through),
            'return_call_indirect': call(through_table), 'return_call_ref': call(through_reference),
            'resume': asker.ref(get) + cont_new(asker.fresh_type) + resume(asker.fresh_type),
            'resume-of-a-tail-call': asker.ref(through) + cont_new(asker.fresh_type) + resume(asker.fresh_type),
            'in-a-block': block(asker.arrow([], [I32]), call(get) + br(0)),
            'suspend-and-resume': asker.caught(
                number, local_set(0) + i32_const(0) + local_get(0) + resume(asker.left_type)),
            'suspend-and-no-resume': asker.caught(number, DROP + i32_const(100 * number + 100)),
            'with-a-printer': call(get) + printed(5),
        }[name]

    names = ['call', 'call_indirect', 'call_ref', 'return_call', 'return_call_indirect', 'return_call_ref', 'resume',
             'resume-of-a-tail-call', 'in-a-block', 'suspend-and-resume', 'suspend-and-no-resume', 'with-a-printer']
    for name, number in product(names, range(2)):
        asker = Asker()
        body = given(asker, name, number) + global_get(0) + memory_size(0) + table_size(0)
        numbers = [100 * number + 100, 900, 9, 2]
        shown = written(5, *(f'= {each}' for each in numbers)) if name == 'with-a-printer' else gives(*numbers)
        INSTANCES.row(f'behind-{name}/of-file-{number}', FIRST.bytes(), SECOND.bytes(), asker.main(
            [I32] * 4, body, [(1, nullable(asker.left_type))]), wanted=shown)
    asker = Asker()
    body = b''.join(call(function) for pair in zip(asker.get, asker.size) for function in pair)
    INSTANCES.row('both-in-turn', FIRST.bytes(), SECOND.bytes(), asker.main(
        [I32] * 6, body + global_get(0) + memory_size(0)), wanted=gives(100, 1, 200, 2, 900, 9))


class TypeFile(File):
    """A file with a number of types in front, which are of other shapes than those of the same index in others."""

    def __init__(self, others):
        super().__init__(*[
            functype([I64] * (1 + (count + others) % 3), [I32] * ((count + others) % 2)) for count in range(others)])


def _bodies(file):
    """For each instruction with the index of a type a body that gives 1 and 2, on which the type bears."""
    two, pair = file.arrow([I32], [I32, I32]), file.func([], [I32, I32])
    one = file.func([], [I32])
    adding = file.func([I64, I32], [I32, I32])
    add = file.function([I64, I32], [I32, I32], local_get(1) + i32_const(2))
    fresh, taking, bound = file.cont([], [I32, I32]), file.cont([I64, I32], [I32, I32]), file.cont([I32], [I32, I32])
    both = file.function([], [I32, I32], ONE + i32_const(2))
    tag = file.tag([I32, I64], [I32])
    left = file.cont([I32], [I32, I32])
    asking = file.function([], [I32, I32], i32_const(1) + i64_const(9) + suspend(tag) + DROP + ONE + i32_const(2))
    caught = file.arrow([], [I32, I64, ref(left)])
    file.table(FUNCREF, limits(2))
    file.elements(active_functions([both, add]))
    made = file.ref(add) + cont_new(taking)
    top_two = local_set(1) + local_set(0) + DROP + local_get(0) + local_get(1)
    return {
        'block': i32_const(8) + ONE + block(two, i32_const(2) + br(0)) + top_two,
        'if': i32_const(8) + ONE + ONE + if_(two, i32_const(2) + br(0), UNREACHABLE) + top_two,
        'else': i32_const(8) + ONE + i32_const(0) + if_(two, UNREACHABLE, i32_const(2) + br(0)) + top_two,
        'loop': ONE + loop(two, i32_const(2)),
        'loop-that-begins-again': i32_const(8) + ONE + loop(
            file.arrow([I32], [I32]), local_get(1) + I32_EQZ + ONE + local_set(1) + br_if(0)) + local_set(0) + DROP
        + local_get(0) + i32_const(2),
        'call_indirect': i32_const(0) + call_indirect(pair, 0), 'call_ref': file.ref(both) + call_ref(pair),
        'call_indirect-with-operands': i64_const(5) + ONE + ONE + call_indirect(adding, 0),
        'select': ONE + file.ref(both) + ref_null(pair) + ONE + select(nullable(pair)) + call_ref(pair) + local_set(0)
        + DROP + local_get(0),
        'ref.null': ref_null(one) + REF_IS_NULL + i32_const(2),
        'cont.new': file.ref(both) + cont_new(fresh) + resume(fresh),
        'resume': i64_const(5) + ONE + made + resume(taking),
        'cont.bind': ONE + i64_const(5) + made + cont_bind(taking, bound) + resume(bound),
        'suspend': block(caught, file.ref(asking) + cont_new(fresh) + resume(fresh, on(tag, 0)) + RETURN) + DROP + DROP
        + i32_const(2),
        'suspend-and-resume': block(caught, file.ref(asking) + cont_new(fresh) + resume(fresh, on(tag, 0)) + RETURN)
        + local_set(2) + DROP + DROP + i32_const(0) + local_get(2) + resume(left),
    }


def _type_rows():
    names = list(_bodies(TypeFile(0)))
    for name, others in product(names, (0, 1, 2, 4)):
        file = TypeFile(others)
        body = _bodies(file)[name]
        left = file.cont([I32], [I32, I32])
        file.function([], [I32, I32], body, [(2, I32), (1, nullable(left))], name='x')
        last = TypeFile(3)
        index = last.take_function('m1', 'x', [], [I32, I32])
        TYPES.row(f'{name}/behind-{others}', TypeFile(5).bytes(), file.bytes(), last.main(
            [I32, I32], call(index)), wanted=gives(1, 2))


# Types of functions that give a number: which is below which, and files in which they stand behind others.
GIVES = functype([], [I32])
NAMES = ['top', 'middle', 'low', 'brother', 'equal']
BELOW = {
    'top': NAMES, 'middle': ['middle', 'low', 'equal'], 'low': ['low'], 'brother': ['brother'],
    'equal': ['middle', 'low', 'equal']}


def _family(first):
    """The types, which begin with this index."""
    middle = first + 1
    return [open_type(GIVES), open_type(GIVES, first), final_type(GIVES, middle), final_type(GIVES, first), open_type(
        GIVES, first)]


def _subtype_rows():
    """Elements of one file that another calls by the name of a type."""
    for others, way in [(0, 'call'), (3, 'call'), (3, 'tail-call')]:
        for given, named in product(range(5), range(5)):
            first = File(*_family(0))
            function = first.function_of(given, i32_const(11 + given))
            first.table(FUNCREF, limits(1), name='table')
            first.elements(active_functions([function]))
            second = File(*[functype([I64] * (count + 1), []) for count in range(others)], *_family(others))
            second.take('m0', 'table', 'table', FUNCREF, limits(1))
            called = call_indirect if way == 'call' else return_call_indirect
            fits = NAMES[given] in BELOW[NAMES[named]]
            SUBTYPES.row(
                f'{way}/{NAMES[given]}-as-{NAMES[named]}-behind-{others}', first.bytes(), second.main(
                    [I32], i32_const(0) + called(others + named, 0)), wanted=gives(11 + given) if fits else MISMATCH)
    for others in (0, 2):
        first = File(*_family(0))
        first.function_of(2, i32_const(7), name='x')
        second = File(*[functype([I64] * (count + 1), []) for count in range(others)], *_family(others))
        second.take('m0', 'x', 'func', others)
        second.table(FUNCREF, limits(1))
        second.elements(active_functions([0]))
        for named in range(5):
            SUBTYPES.row(f'imported-as-top/low-as-{NAMES[named]}-behind-{others}', first.bytes(), _with_main(
                second, [I32], i32_const(0) + call_indirect(others + named, 0)),
                wanted=gives(7) if named < 2 or named in (2, 4) else MISMATCH)


def _with_main(file, *main):
    """The bytes of a file with this main, which later ones have not."""
    kept = {kind: list(given) for kind, given in file.sections.items()}
    given = file.main(*main)
    file.sections = kept
    return given


def counting_files(first_way, second_way):
    """Two files with functions that call one another so many times, by the table of the first one."""
    first = File()
    counting = first.func([I32], [I32])
    first.table(FUNCREF, limits(1), name='table')
    called = {'call': call_indirect, 'tail-call': return_call_indirect}[first_way]
    first.function([I32], [I32], local_get(0) + I32_EQZ + if_(EMPTY, i32_const(40) + RETURN) + local_get(0) + LESS
                   + i32_const(0) + called(counting, 0), name='x')
    second = File(functype([I64], []))
    second.take('m0', 'table', 'table', FUNCREF, limits(1))
    other = second.take_function('m0', 'x', [I32], [I32])
    called = {'call': call, 'tail-call': return_call}[second_way]
    function = second.function([I32], [I32], local_get(0) + I32_EQZ + if_(EMPTY, i32_const(50) + RETURN) + local_get(0)
                               + LESS + called(other), name='y')
    second.elements(active_functions([function]))
    return first.bytes(), second.bytes()


def _calling(source, name, number):
    file = File()
    return file.main([I32], i32_const(number) + call(file.take_function(source, name, [I32], [I32])))


def _frame_rows():
    """One frame is that of main; a call of n is n + 1 frames."""
    for number in (0, 1, 2, 3, 19998, 19999):
        wanted = says('limit frames', 9) if number == 19999 else gives(50 if number % 2 == 0 else 40)
        files = [*counting_files('call', 'call'), _calling('m1', 'y', number)]
        LIMITS.row(f'frames/{number}-calls', *files, wanted=wanted)
        if number > 3:
            LIMITS.told(f'frames/{number}-calls/with-statistics', *files)
    LIMITS.row('frames/60001-calls/tail-call-and-tail-call', *counting_files('tail-call', 'tail-call'), _calling(
        'm1', 'y', 60001), wanted=gives(40))
    for ways, most in [(('call', 'tail-call'), 39997), (('tail-call', 'call'), 39996)]:
        for number in (most, most + 1):
            wanted = gives(50 if number % 2 == 0 else 40) if number == most else says('limit frames', 9)
            LIMITS.row(f'frames/{number}-calls/{"-and-".join(ways)}', *counting_files(*ways), _calling(
                'm1', 'y', number), wanted=wanted)


def _handle_rows():
    """Continuations that resume one another, of two files in turn."""
    first = File()
    made = first.cont([I32])
    counting = first.func([I32])
    first.table(nullable(counting), limits(1), name='table')
    again = local_get(0) + LESS + i32_const(0) + table_get(0) + cont_new(made) + resume(made)
    first.function([I32], [], local_get(0) + if_(EMPTY, again), name='x')
    second = File(functype([I64], []))
    made = second.cont([I32])
    second.take('m0', 'table', 'table', nullable(second.func([I32])), limits(1))
    other = second.take_function('m0', 'x', [I32])
    again = local_get(0) + LESS + second.ref(other) + cont_new(made) + resume(made)
    function = second.function([I32], [], local_get(0) + if_(EMPTY, again), name='y')
    second.elements(active_expressions_in(0, nullable(second.func([I32])), [ref_func(function)]))
    for number in (0, 1, 2, 999, 1000, 1001):
        last = File()
        last = last.main([], i32_const(number) + call(last.take_function('m1', 'y', [I32])))
        LIMITS.told(f'handles/{number}-of-two-files', first.bytes(), second.bytes(), last)
        LIMITS.row(f'handles/{number}-of-two-files/without-statistics', first.bytes(), second.bytes(), last,
                   wanted=says('limit handles', 9) if number == 1001 else [])


def _live_rows():
    """Continuations that are made in two files and kept nowhere."""
    first = File()
    made = first.cont()
    idle = first.function()
    first.function([], [], first.ref(idle) + cont_new(made) + DROP, name='make')
    second = File(functype([I64], []))
    made = second.cont()
    make = second.take_function('m0', 'make')
    idle = second.function()
    both = call(make) + second.ref(idle) + cont_new(made) + DROP
    looped = loop(EMPTY, both + local_get(0) + LESS + local_tee(0) + br_if(0))
    for name, more, limit in [('32768-each', b'', False), ('32768-each-and-one-here', second.ref(idle) + cont_new(
            made) + DROP, True), ('32768-each-and-one-there', call(make), True)]:
        last = _with_main(second, [], i32_const(32768) + local_set(0) + looped + more, [(1, I32)])
        LIMITS.row(f'conts/{name}', first.bytes(), last, wanted=says('limit conts', 9) if limit else [], stats=False)


def _cut_rows():
    """Runs that are cut at each reduction."""
    STEPS.each_step('calls', *counting_files('call', 'call'), _calling('m1', 'y', 1))
    STEPS.each_step('tail-calls', *counting_files('tail-call', 'tail-call'), _calling('m1', 'y', 1))
    handler = Handler(('m0', 0))
    body = handler.handled(handler.functions[0], [0], resume(handler.nothing) + RETURN)
    STEPS.each_step('suspend-and-resume', tags_and_suspends(), handler.main([], body))
    second = SwitchFile(2, 'm0', 0)
    second.coroutine(100, 0, 'go')
    first = SwitchFile(0)
    first.coroutine(10, 1, 'go')
    last = SwitchFile(1, 'm0', 0)
    ping, pong = last.take_coroutine('m0', 'go'), last.take_coroutine('m1', 'go')
    STEPS.each_step('switch', first.bytes(), second.bytes(), last.main([], last.starting(
        [on_switch(last.switch_tag)], ping, pong)))


_start_rows()
_other_start_rows()
_instance_rows()
_type_rows()
_subtype_rows()
_frame_rows()
_handle_rows()
_live_rows()
_cut_rows()
