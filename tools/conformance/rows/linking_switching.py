"""Links that switch stacks: suspends in one file and handles in another, switches between files, and continuations that
are made in one file and used in another."""

from itertools import product

from assembler.instructions import (
    DROP, I32_ADD, I32_MUL, RETURN, block, br, call, cont_bind, cont_new, global_get, global_set, i32_const, local_get,
    local_set, on, on_switch, ref_null, resume, suspend, switch, table_get, table_set)
from assembler.types import I32, I64, NOCONT, conttype, functype, limits, nullable, ref
from rows.linking_samples import File, LinkSection, gives, no_import, says, trap, written
from rows.runs import printed

SUSPENDS = LinkSection('suspends')
HANDLES = LinkSection('handles')
SWITCHES = LinkSection('switches')
CONTINUATIONS = LinkSection('continuations')

ONE = i32_const(1)
FILES = range(3)
# Which tag of which file each index of clauses stands for, in each of three files.
PLACES = [[(0, 0), (0, 1)], [(1, 0), (1, 1)], [(1, 1), (0, 0), (2, 0), (2, 1)]]
# The number of each of these in the order made: the second file has one more in front, and the third two.
TAG_NUMBERS = {(0, 0): 0, (0, 1): 1, (1, 0): 3, (1, 1): 4, (2, 0): 7, (2, 1): 8}


# A file with a tag and a function that suspends with it, and one that imports both, resumes a continuation of the
# function under a clause for the tag, drops what is captured, and gives 7. They are written out byte by byte.
SUSPENDING = bytes.fromhex(
    '0061736D01000000 010401600000 03020100 0D03010000 0709020165040001660000 0A06010400E2000B')
CATCHING = bytes.fromhex(
    '0061736D01000000 010F046000005D006000017F6000016401 021002026D3001660000026D300165040000 03020102 '
    '070801046D61696E0001 09050103000100 0A170115000203D200E001E3010100000041010F0B1A41070B')


class TagFile(File):
    """One of three files with two tags of its own behind others, and functions that suspend with them and handle them.

    Each has a variable of its own, so that it shows in whose instance what goes on.
    """

    def __init__(self, file):
        super().__init__(*[functype([I64] * (count + 1), [I64]) for count in range(2 * file)])
        self.file = file
        self.arrow_type = self.func([], [I32])
        self.fresh_type = self.cont([], [I32])
        self.left_type = self.cont([I32], [I32])
        self.tags = []
        if file == 2:
            self.tags = [self.take_tag(f'm{other}', f'tag{place}', [I32], [I32]) for other, place in PLACES[2][:2]]
        for _ in range(file):
            self.tag([I64])
        self.tags += [self.tag([I32], [I32], name=f'tag{place}') for place in range(2)]
        self.variable(I32, i32_const(1000 * (file + 1)))

    def suspending(self, index, name):
        """A function that suspends with 5, and adds the variable to what it is given."""
        body = i32_const(5) + suspend(self.tags[index]) + global_get(0) + I32_ADD
        return self.function([], [I32], body, name=name)

    def handling(self, indices, behind, name):
        """A function that resumes what it is given, with a clause for each of these indices. Where one leads, its
        number and the variable are added to what it is given, and then comes what is behind."""
        clauses = [on(self.tags[index], place) for place, index in enumerate(reversed(indices))][::-1]
        inside = local_get(0) + cont_new(self.fresh_type) + resume(self.fresh_type, *clauses) + br(len(indices))
        for place, index in enumerate(reversed(indices)):
            inside = block(self.arrow([], [I32, ref(self.left_type)]), inside) + local_set(1)
            inside += i32_const(100 * index) + I32_ADD + global_get(0) + I32_ADD + behind
            inside += br(len(indices) - 1 - place)
        return self.function(
            [ref(self.arrow_type)], [I32], block(self.arrow([], [I32]), inside), [(1, nullable(self.left_type))], name)


def _tag_file(file):
    given = TagFile(file)
    for place in range(2):
        given.suspending(place - 2 if file == 2 else place, f'suspend{place}')
    indices = range(len(PLACES[file]))
    given.handling(indices, b'', 'handle')
    given.handling(indices, local_get(1) + resume(given.left_type), 'continue')
    return given.bytes()


TAG_FILES = [_tag_file(file) for file in FILES]


def _handled(handler, action, file, place):
    """A file whose main has a suspend of one file handled in another."""
    asked = File(functype([I64], []))
    arrow_type = asked.func([], [I32])
    handle = asked.take_function(f'm{handler}', action, [ref(arrow_type)], [I32])
    suspended = asked.take_function(f'm{file}', f'suspend{place}', [], [I32])
    return asked.main([I32], asked.ref(suspended) + call(handle))


def _clause_rows():
    for handler, (file, place) in product(FILES, TAG_NUMBERS):
        for action in ('handle', 'continue'):
            if (file, place) in PLACES[handler]:
                number = 5 + 100 * PLACES[handler].index((file, place)) + 1000 * (handler + 1)
                wanted = gives(number if action == 'handle' else number + 1000 * (file + 1))
            else:
                wanted = trap(f'unhandled {TAG_NUMBERS[file, place]}')
            HANDLES.row(f'{action}/tag-{place}-of-file-{file}-in-file-{handler}', *TAG_FILES,
                        _handled(handler, action, file, place), wanted=wanted)


def _unhandled_rows():
    for (file, place), number in TAG_NUMBERS.items():
        asked = File()
        suspended = asked.take_function(f'm{file}', f'suspend{place}', [], [I32])
        SUSPENDS.row(f'unhandled/tag-{place}-of-file-{file}', *TAG_FILES, asked.main([I32], call(suspended)),
                     wanted=trap(f'unhandled {number}'))
        taken = File()
        index = taken.take_tag(f'm{file}', f'tag{place}', [I32], [I32])
        taken.tag()
        SUSPENDS.row(f'unhandled/tag-{place}-of-file-{file}-that-is-imported', *TAG_FILES, taken.main(
            [I32], ONE + suspend(index)), wanted=trap(f'unhandled {number}'))
        taken = File()
        taken.take_tag(f'm{file}', f'tag{place}', [I32], [I32])
        taken.tag()
        own = taken.tag()
        SUSPENDS.row(f'unhandled/the-third-own-one-behind-tag-{place}-of-file-{file}', *TAG_FILES, taken.main(
            [], suspend(own)), wanted=trap('unhandled 10'))
    handed = File()
    handed.give('again', 'tag', handed.take_tag('m1', 'tag1', [I32], [I32]))
    last = File()
    index = last.take_tag('m2', 'again', [I32], [I32])
    last.tag()
    SUSPENDS.row('unhandled/handed-on', *TAG_FILES[:2], handed.bytes(), last.main([I32], ONE + suspend(index)),
                 wanted=trap('unhandled 4'))
    for count in range(4):
        same = File()
        same.tag(name='e')
        same.function([], [], suspend(0), name='x')
        taken = File()
        called = taken.take_function(f'm{count}', 'x')
        SUSPENDS.call(f'unhandled/of-instance-{count}-of-one-file', ['a'] * 4 + ['b'], {
            'a': same.bytes(), 'b': taken.main([], call(called))}, trap(f'unhandled {count}'))


def tags_and_suspends(count=1):
    """A file that exports tags of nothing, and functions that suspend with them and print 6 where they go on."""
    file = File()
    file.printer()
    for number in range(count):
        tag = file.tag(name=f'e{number}')
        file.function([], [], suspend(tag) + printed(6), name=f'x{number}')
    return file.bytes()


class Handler(File):
    """A file that imports tags and functions of this kind from others, and handles one in the other."""

    def __init__(self, *taken):
        super().__init__(functype([I64], []))
        self.printer()
        self.nothing = self.cont()
        self.label = self.arrow([], [ref(self.nothing)])
        self.tags, self.functions = [], []
        for source, number in taken:
            self.tags.append(self.take_tag(source, f'e{number}'))
            self.functions.append(self.take_function(source, f'x{number}'))

    def handled(self, function, clauses, led):
        """Resume a continuation of a function with clauses for these tags, and print 0 where it ends; where a clause
        leads, print its number from 1, and go on with the continuation on top."""
        inside = self.ref(function) + cont_new(self.nothing) + resume(
            self.nothing, *(on(tag, place) for place, tag in enumerate(clauses))) + printed(0) + RETURN
        for number, _ in enumerate(clauses):
            inside = block(self.label, inside) + printed(number + 1) + led
        return inside


def _first_clause_rows():
    """Of two clauses whose tags are one the first counts, whatever their indices are; and two tags of equal types are
    two."""
    given = tags_and_suspends(2)
    for name, taken, clauses, wanted in [
            ('one-tag-under-two-indices', [('m0', 0), ('m0', 0)], [0, 1], [1]),
            ('one-tag-under-two-indices-the-other-way', [('m0', 0), ('m0', 0)], [1, 0], [1]),
            ('the-second-one', [('m0', 0), ('m0', 1)], [1, 0], [2]),
            ('the-third-one', [('m0', 0), ('m0', 1), ('m1', 0)], [2, 1, 0], [3]),
            ('the-other-file-s', [('m0', 0), ('m1', 0)], [1, 0], [2])]:
        handler = Handler(*taken)
        body = handler.handled(handler.functions[0], clauses, DROP + RETURN)
        HANDLES.row(f'clauses/{name}', given, given, handler.main([], body), wanted=written(*wanted))
    for name, taken, clauses in [
            ('of-another-file', [('m0', 0), ('m1', 0)], [1]), ('of-another-number', [('m0', 0), ('m0', 1)], [1]),
            ('of-none', [('m0', 0)], [])]:
        handler = Handler(*taken)
        body = handler.handled(handler.functions[0], clauses, DROP + RETURN)
        HANDLES.row(f'clauses/{name}', given, given, handler.main([], body), wanted=trap('unhandled 0'))
    own = Handler(('m0', 0))
    other = own.tag()
    HANDLES.row('clauses/of-an-own-one-at-its-address', given, own.main([], own.handled(
        own.functions[0], [other], DROP + RETURN)), wanted=trap('unhandled 0'))


def _inner_file():
    """A file with a tag of its own, and a function that calls another one under a handle for that tag."""
    file = Handler()
    own = file.tag(name='e0')
    called = file.func([], [])
    inside = local_get(0) + cont_new(file.nothing) + resume(file.nothing, on(own, 0)) + printed(8) + RETURN
    file.function([ref(called)], [], block(file.label, inside) + DROP + printed(9), name='under')
    file.function([], [], suspend(own) + printed(7), name='x0')
    return file.bytes()


def _inner_rows():
    """Handles of two files in one another."""
    given, inner = tags_and_suspends(2), _inner_file()
    for name, source, number, caught, wanted in [
            ('passes-the-inner-one', 'm0', 0, [('m0', 0)], written(1, 6, 8, 0)),
            ('stops-at-the-inner-one', 'm1', 0, [('m0', 0)], written(9, 0)),
            ('stops-at-the-inner-one-though-both-would', 'm1', 0, [('m1', 0)], written(9, 0)),
            ('passes-both', 'm0', 1, [('m0', 0)], trap('unhandled 1')),
            ('passes-the-inner-one-to-the-second-clause', 'm0', 1, [('m0', 0), ('m0', 1)], written(2, 6, 8, 0))]:
        outer = Handler(*caught)
        called = outer.func([], [])
        under = outer.take_function('m1', 'under', [ref(called)])
        suspended = outer.take_function(source, f'x{number}')
        function = outer.function([], [], outer.ref(suspended) + call(under))
        behind = resume(outer.nothing) + printed(0) + RETURN
        last = outer.main([], outer.handled(function, range(len(caught)), behind))
        HANDLES.row(f'nested/{name}', given, inner, last, wanted=wanted)
        HANDLES.told(f'nested/{name}/with-statistics', given, inner, last)


# Coroutines that switch to one another, in two files: each takes a number and the one that switched to it.

class SwitchFile(File):
    """A file with the types of coroutines, behind others, and the tag for which they switch."""

    def __init__(self, others, source=None, first_tags=0):
        super().__init__(*[functype([I64] * (count + 1), []) for count in range(others)], [
            functype([I32, nullable(others + 1)], []), conttype(others)])
        self.function_type, self.own = others, others + 1
        self.printer()
        if source is not None:
            self.switch_tag = self.take_tag(source, 'e')
        for _ in range(first_tags):
            self.tag([I64])
        if source is None:
            self.switch_tag = self.tag(name='e')

    def coroutine(self, factor, times, name):
        """Prints its number times a factor, and switches back with one more, so many times."""
        shown = local_get(0) + i32_const(factor) + I32_MUL + call(0)
        turn = local_get(0) + ONE + I32_ADD + local_get(1) + switch(self.own, self.switch_tag) + local_set(1)
        turn += local_set(0)
        return self.function_of(self.function_type, (shown + turn) * times + shown, name=name)

    def starting(self, clauses, first, second):
        """Begin with a coroutine and give it the other one."""
        return i32_const(1) + self.ref(second) + cont_new(self.own) + self.ref(first) + cont_new(self.own) + resume(
            self.own, *clauses)

    def take_coroutine(self, source, name):
        return self.take(source, name, 'func', self.function_type)


def _switch_file(others, source, first_tags, factor, times):
    file = SwitchFile(others, source, first_tags)
    file.coroutine(factor, times, 'go')
    return file.bytes()


def _switch_rows():
    for others, first_tags in [(0, 0), (2, 1), (3, 2)]:
        for times in range(4):
            first = _switch_file(0, None, first_tags, 10, times)
            second = _switch_file(others, 'm0', 1, 100, times)
            main = SwitchFile(others + 1, 'm0', 0)
            ping, pong = main.take_coroutine('m0', 'go'), main.take_coroutine('m1', 'go')
            given = main.main([], main.starting([on_switch(main.switch_tag)], ping, pong) + printed(0))
            numbers = [number * (10 if number % 2 else 100) for number in range(1, 2 * times + 2)]
            name = f'two-files/{times}-turns-behind-{others}'
            SWITCHES.row(name, first, second, given, wanted=written(*numbers, 0))
            SWITCHES.told(f'{name}/with-statistics', first, second, given)
    first, second = _switch_file(0, None, 3, 10, 1), _switch_file(2, 'm0', 1, 100, 1)
    for name, steps, clauses in [
            ('no-clause', 17, lambda file: []), ('a-label', 18, lambda file: [on(file.switch_tag, 0)]),
            ('another-tag', 17, lambda file: [on_switch(file.tag())]),
            ('another-tag-twice', 17, lambda file: [on_switch(file.tag())] * 2)]:
        main = SwitchFile(1, 'm0', 0)
        ping, pong = main.take_coroutine('m0', 'go'), main.take_coroutine('m1', 'go')
        body = main.starting(clauses(main), ping, pong) + printed(0)
        if name == 'a-label':
            body = block(main.arrow([], [ref(main.cont([], []))]), body + RETURN) + DROP
        SWITCHES.told(f'unhandled/{name}', first, second, main.main([], body), wanted=[
            'out | 10', 'err | trap unhandled 3', f'| stats steps {steps} made 2 consumed 1 live 1', 'status 1'])


# Continuations that are made in one file and used in others.

def making_file():
    """A file that makes continuations that take and give a number, and keeps them in a table and in a variable."""
    file = File()
    file.printer()
    made = file.cont([I32], [I32])
    file.table(nullable(made), limits(2), name='table')
    file.variable(nullable(made), ref_null(NOCONT), name='kept')
    file.variable(I32, i32_const(300))
    tag = file.tag([I32], [I32], name='e')
    body = local_get(0) + call(0) + local_get(0) + suspend(tag) + global_get(1) + I32_ADD
    plain = file.function([I32], [I32], local_get(0) + global_get(1) + I32_ADD)
    asking = file.function([I32], [I32], body)
    for name, function in [('plain', plain), ('asking', asking)]:
        file.function([], [ref(made)], file.ref(function) + cont_new(made), name=name)
        file.function([], [], file.ref(function) + cont_new(made) + global_set(0), name=f'keep_{name}')
    file.function([I32], [I32], local_get(0) + global_get(0) + resume(made), name='resume')
    return file.bytes()


class ContinuationUser(File):
    """A file that imports all this, and has types in front."""

    def __init__(self, others=2):
        super().__init__(*[functype([I64] * (count + 1), []) for count in range(others)])
        self.printer()
        self.made = self.cont([I32], [I32])
        self.fresh = self.take_function('m0', 'plain', [], [ref(self.made)])
        self.asking = self.take_function('m0', 'asking', [], [ref(self.made)])
        self.keep = self.take_function('m0', 'keep_plain')
        self.keep_asking = self.take_function('m0', 'keep_asking')
        self.resume = self.take_function('m0', 'resume', [I32], [I32])
        self.take('m0', 'table', 'table', nullable(self.made), limits(1))
        self.take('m0', 'kept', 'global', nullable(self.made), True)
        self.tag_of_other = self.take_tag('m0', 'e', [I32], [I32])


def _continuation_rows():
    consumed = 'consumed continuation'
    given = making_file()
    for name, results, body, wanted in [
            ('made-there-and-resumed-here', 1, lambda user: i32_const(4) + call(user.fresh) + resume(user.made),
             gives(304)),
            ('kept-there-and-resumed-here', 1, lambda user: call(user.keep) + i32_const(4) + global_get(0)
             + resume(user.made), gives(304)),
            ('kept-there-and-resumed-there', 1, lambda user: call(user.keep) + i32_const(4) + call(user.resume),
             gives(304)),
            ('resumed-here-and-then-there', 2, lambda user: call(user.keep) + i32_const(4) + global_get(0)
             + resume(user.made) + i32_const(4) + call(user.resume), trap(consumed)),
            ('resumed-there-and-then-here', 2, lambda user: call(user.keep) + i32_const(4) + call(user.resume)
             + i32_const(4) + global_get(0) + resume(user.made), trap(consumed)),
            ('resumed-there-twice', 2, lambda user: call(user.keep) + i32_const(4) + call(user.resume)
             + i32_const(4) + call(user.resume), trap(consumed)),
            ('null-there', 1, lambda user: i32_const(4) + call(user.resume), trap('null reference')),
            ('in-the-table', 1, lambda user: ONE + call(user.fresh) + table_set(0) + i32_const(4) + ONE + table_get(0)
             + resume(user.made), gives(304)),
            ('in-the-table-twice', 2, lambda user: ONE + call(user.fresh) + table_set(0) + (
                i32_const(4) + ONE + table_get(0) + resume(user.made)) * 2, trap(consumed)),
            ('bound-here', 1, lambda user: i32_const(4) + call(user.fresh) + cont_bind(user.made, user.cont([], [I32]))
             + resume(user.cont([], [I32])), gives(304)),
            ('bound-here-and-then-resumed-there', 1, lambda user: call(user.keep) + i32_const(4) + global_get(0)
             + cont_bind(user.made, user.cont([], [I32])) + DROP + i32_const(4) + call(user.resume), trap(consumed)),
            ('resumed-there-and-then-bound-here', 0, lambda user: call(user.keep) + i32_const(4) + call(user.resume)
             + DROP + i32_const(4) + global_get(0) + cont_bind(user.made, user.cont([], [I32])) + DROP,
             trap(consumed))]:
        for others in (0, 3):
            user = ContinuationUser(others)
            last = user.main([I32] * results, body(user))
            CONTINUATIONS.row(f'{name}/behind-{others}', given, last, wanted=wanted)
            if others:
                CONTINUATIONS.told(f'{name}/with-statistics', given, last)


def _suspended_rows():
    """A continuation that suspends in one file, and is caught and resumed in the other."""
    consumed = 'consumed continuation'
    given = making_file()
    for name, times, wanted in [
            ('and-not-resumed', 0, written(4, '= 4')), ('and-resumed', 1, written(4, '= 304')),
            ('and-resumed-twice', 2, trap(consumed, 4))]:
        user = ContinuationUser()
        caught = block(user.arrow([], [I32, ref(user.made)]), i32_const(4) + call(user.asking) + resume(
            user.made, on(user.tag_of_other, 0)) + RETURN) + local_set(0)
        rest = (local_get(0) + resume(user.made)) * times
        last = user.main([I32], caught + rest, [(1, nullable(user.made))])
        CONTINUATIONS.row(f'suspended-there-and-caught-here/{name}', given, last, wanted=wanted)
        CONTINUATIONS.told(f'suspended-there-and-caught-here/{name}/with-statistics', given, last)


def _function_rows():
    """Continuations of functions of other files, and of printers that are handed on."""
    given = File()
    given.give('p', 'func', given.printer())
    given.variable(I32, i32_const(90))
    given.function([I32], [I32], global_get(0) + local_get(0) + I32_ADD, name='x')
    user = File(functype([I64], []))
    index = user.take_function('m0', 'p', [I32])
    made = user.cont([I32])
    CONTINUATIONS.row('of-a-printer-of-another-file', given.bytes(), user.main(
        [], i32_const(-8) + user.ref(index) + cont_new(made) + resume(made)), wanted=written(-8))
    user = File(functype([I64], []))
    index = user.take_function('m0', 'x', [I32], [I32])
    user.variable(I32, i32_const(1))
    made = user.cont([I32], [I32])
    CONTINUATIONS.row('of-a-function-of-another-file', given.bytes(), user.main(
        [I32] * 2, i32_const(5) + user.ref(index) + cont_new(made) + resume(made) + global_get(0)), wanted=gives(95, 1))


def _written_out_rows():
    wanted = ['out | = 7', 'err | stats steps 12 made 2 consumed 1 live 1']
    SUSPENDS.told('written-out', SUSPENDING, CATCHING, wanted=wanted)
    SUSPENDS.row('written-out/the-second-alone', CATCHING, wanted=no_import(0))
    SUSPENDS.row('written-out/the-other-way-round', CATCHING, SUSPENDING, wanted=says('no entry', 4))


_written_out_rows()
_unhandled_rows()
_clause_rows()
_first_clause_rows()
_inner_rows()
_switch_rows()
_continuation_rows()
_suspended_rows()
_function_rows()
