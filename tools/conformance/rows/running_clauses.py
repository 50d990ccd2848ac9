"""Runs in which handles stand in one another: which clause is taken, and what the captured context has."""

from itertools import product

from assembler.instructions import (
    DROP, RETURN, block, br, call, cont_bind, i32_const, local_get, local_set, loop, on, on_switch, resume, suspend,
    switch)
from assembler.types import EMPTY, I32, nullable, ref
from rows.runs import RunSection, printed
from rows.switching_modules import PRINT, SwitchingModule

DEPTHS = RunSection('depths')
LISTS = RunSection('lists')
INNER = RunSection('inner-handles')
AGAIN = RunSection('again')

# What a handle has for a tag.
CLAUSES = {
    'none': [], 'label': [on(0, 0)], 'switch': [on_switch(0)], 'both': [on(0, 0), on_switch(0)],
}


def three_deep(action, lists):
    """A module with handles three deep, each with one of these lists of clauses, the outermost first.

    In the innermost this is done, which takes nothing and gives a number. Tag 0 gives a number, and so does all that is
    resumed. Where a clause leads to a label, the continuation is resumed without clauses.
    """
    module = SwitchingModule()
    module.tag([], [I32])
    back, numbered = module.cont([I32], [I32]), module.cont([], [I32])
    target_type = module.cont([nullable(back)], [I32])
    target = module.function([nullable(back)], [I32], printed(50) + i32_const(51) + local_get(0) + resume(back) + PRINT
                             + i32_const(52))
    done = suspend(0) if action == 'suspend' else module.fresh(target) + switch(target_type, 0)
    inner = module.function([], [I32], printed(40) + done + PRINT + i32_const(41))
    for level, clauses in zip((3, 2, 1), reversed(lists)):
        resumed = block(ref(back), module.fresh(inner) + resume(numbered, *clauses) + PRINT + i32_const(10 * level)
                        + RETURN)
        handler = local_set(0) + printed(10 * level + 1) + i32_const(level) + local_get(0) + resume(back) + PRINT
        inner = module.function([], [I32], resumed + handler + i32_const(10 * level + 2), [(1, nullable(back))])
    return module.main([I32], call(inner))


def _depth_rows():
    for action in ('suspend', 'switch'):
        for names in product(CLAUSES, repeat=3):
            DEPTHS.told(f'{action}/{"-".join(names)}', three_deep(action, [CLAUSES[name] for name in names]))

class Labels(SwitchingModule):
    """A module with some tags of nothing, in which each clause leads to a label of its own."""

    def __init__(self, tags):
        super().__init__()
        for _ in range(tags):
            self.tag()
        self.nothing = self.cont([], [])

    def resumed(self, given, clauses, behind):
        """Resume what is given with these clauses, each a tag and a label from 0 on, or the tag of a switch. Behind the
        label with this number what is told for it goes on with the continuation; it leaves all the blocks where it
        leads to an end."""
        handlers = [on(*clause) if isinstance(clause, tuple) else on_switch(clause) for clause in clauses]
        depth = len(behind)
        body = given + resume(self.nothing, *handlers) + printed(-1)
        for label, handler in enumerate(behind):
            body = block(self.arrow([], [ref(self.nothing)]), body + br(depth - label)) + handler
        return block(EMPTY, body)


def _list_rows():
    """Which clause of a list is the first for a tag."""
    lists = {
        'one-label': [(0, 0)], 'another-label': [(0, 1)], 'first-of-two': [(0, 0), (0, 1)],
        'first-of-two-labels-exchanged': [(0, 1), (0, 0)], 'first-of-three': [(0, 2), (0, 0), (0, 1)],
        'behind-another-tag': [(1, 0), (0, 1)], 'before-another-tag': [(0, 1), (1, 0)],
        'behind-two-other-tags': [(1, 0), (2, 0), (0, 2)], 'between-others': [(2, 1), (0, 2), (1, 0), (0, 0)],
        'behind-a-switch': [0, (0, 1)], 'before-a-switch': [(0, 1), 0], 'between-switches': [0, 1, (0, 2), 0],
        'of-another-tag-alone': [(1, 0)], 'a-switch-alone': [0], 'nothing': [], 'the-same-twice': [(0, 2), (0, 2)],
        'a-switch-of-another-tag': [1, (0, 1)], 'others-and-switches-alone': [(1, 0), 0, (2, 1), 0],
    }
    for name, clauses in lists.items():
        module = Labels(3)
        function = module.function([], [], printed(5) + suspend(0) + printed(6))
        behind = [printed(label) + resume(module.nothing) + printed(9) + br(2 - label) for label in range(3)]
        LISTS.told(f'label/{name}', module.main([], module.resumed(module.fresh(function), clauses, behind)))
    of_switch = {
        'alone': [0], 'twice': [0, 0], 'behind-a-label': [(0, 0), 0], 'before-a-label': [0, (0, 0)],
        'behind-another-tag': [1, 0], 'before-another-tag': [0, 1], 'a-label-alone': [(0, 0)],
        'of-another-tag-alone': [1], 'nothing': [], 'behind-labels-of-all-tags': [(0, 0), (1, 0), (2, 0), 0],
    }
    for name, clauses in of_switch.items():
        module = Labels(3)
        target_type = module.cont([ref(module.nothing)], [])
        target = module.function(
            [ref(module.nothing)], [], printed(7) + local_get(0) + resume(module.nothing) + printed(8))
        function = module.function([], [], printed(5) + module.fresh(target) + switch(target_type, 0) + printed(6))
        LISTS.told(f'switch/{name}', module.main([], module.resumed(
            module.fresh(function), clauses, [printed(0) + DROP])))


def _third_tag_rows():
    """The tag that is named where there is no handle for it."""
    for tag in range(3):
        module = Labels(3)
        function = module.function([], [], printed(5) + suspend(tag) + printed(6))
        others = [(other, 0) for other in range(3) if other != tag]
        LISTS.told(f'unhandled/{tag}-of-three', module.main([], module.resumed(
            module.fresh(function), others, [printed(0) + DROP])))


def passing(tags):
    """A module in which function 2 suspends with tags 0, 1 and again with these, and function 3 resumes it with a
    clause for tag 1. The clause's label prints 31, and goes on in the continuation with the same clause."""
    module = Labels(2)
    innermost = printed(20) + b''.join(suspend(tag) + printed(21 + number) for number, tag in enumerate(tags))
    function = module.function([], [], innermost)
    again = loop(EMPTY, block(
        module.arrow([], [ref(module.nothing)]), local_get(0) + resume(module.nothing, on(1, 0)) + printed(32) + RETURN)
        + local_set(0) + printed(31) + br(0))
    begun = printed(30) + module.fresh(function) + local_set(0)
    module.function([], [], begun + again, [(1, nullable(module.nothing))])
    return module


def _inner_rows():
    """A context with handles in it, which catch what is suspended when it goes on."""
    for name, tags in [('first', [1, 0]), ('behind', [0, 1]), ('before-and-behind', [1, 0, 1, 1]), ('twice', [0, 0])]:
        module = passing(tags)
        nothing = module.nothing
        clause = on(0, 0)
        label = module.arrow([], [ref(nothing)])
        once = block(EMPTY, block(label, module.fresh(3) + resume(nothing, clause) + br(1)) + printed(10)
                     + resume(nothing) + printed(11))
        INNER.told(f'{name}/resumed-without-clauses', module.main([], once))
        each = module.fresh(3) + local_set(0) + loop(EMPTY, block(
            label, printed(12) + local_get(0) + resume(nothing, clause) + printed(13) + RETURN) + local_set(0) + br(0))
        INNER.told(f'{name}/resumed-with-the-clause', module.main([], each, [(1, nullable(nothing))]))
        other = block(EMPTY, block(label, module.fresh(3) + resume(nothing, clause) + br(1)) + local_set(0) + block(
            label, local_get(0) + resume(nothing, on(1, 0)) + printed(14) + br(1)) + DROP + printed(15))
        INNER.told(f'{name}/resumed-with-a-clause-for-the-inner-tag', module.main([], other, [(1, nullable(nothing))]))
        INNER.told(f'{name}/dropped', module.main(
            [], block(EMPTY, block(label, module.fresh(3) + resume(nothing, clause) + br(1)) + DROP) + printed(16)))


def _again_rows():
    """Continuations that are resumed under another handle than before."""
    module = Labels(2)
    nothing = module.nothing
    function = module.function([], [], b''.join(
        printed(20 + number) + suspend(tag) for number, tag in enumerate([0, 1, 0])) + printed(29))
    def under(given, tag, number, behind):
        return module.resumed(given, [(tag, 0)], [printed(number) + local_set(0) + behind])
    again = local_get(0)
    kept = [(1, nullable(nothing))]
    three = under(module.fresh(function), 0, 1, b'') + under(again, 1, 2, b'') + under(again, 0, 3, b'')
    AGAIN.told('one-after-the-other', module.main([], three + again + resume(nothing), kept))
    within = under(module.fresh(function), 0, 1, under(again, 1, 2, under(again, 0, 3, again + resume(nothing))))
    AGAIN.told('each-where-the-last-led', module.main([], within, kept))
    AGAIN.told('for-another-tag', module.main(
        [], under(module.fresh(function), 0, 1, b'') + under(again, 0, 2, b''), kept))
    caller = module.function([nullable(nothing)], [], module.resumed(
        local_get(0), [(1, 0)], [printed(4) + local_set(0) + printed(5) + local_get(0) + resume(nothing)]))
    AGAIN.told('in-another-function', module.main(
        [], under(module.fresh(function), 0, 1, again + call(caller)), kept))
    holder = module.cont([nullable(nothing)], [])
    AGAIN.told('in-another-continuation', module.main(
        [], under(module.fresh(function), 0, 1, module.resumed(
            again + module.fresh(caller) + cont_bind(holder, nothing), [(0, 0)],
            [printed(6) + resume(nothing)])), kept))


_depth_rows()
_list_rows()
_third_tag_rows()
_inner_rows()
_again_rows()
