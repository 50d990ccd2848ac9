"""The code of expressions and statements."""

from assembler.instructions import (
    DROP, I32_WRAP_I64, NOP, REF_AS_NON_NULL, RETURN, UNREACHABLE, block, br, br_if, call, cont_bind, cont_new,
    i64_const, local_get, local_set, loop, on_switch, ref_func, ref_null, resume, return_call, suspend, switch,
    table_get, table_set)
from assembler.types import EMPTY
from script_compiler.indices import COMPUTATION_TYPE, COROUTINE_TYPE, PRINTER, RESUMPTION_TYPE
from script_compiler.instructions import (
    ARITHMETIC, COMPARISONS, EXTEND, IS_ZERO, NEGATE, NUMBER, TRUTH, if_zero, place_of)
from script_reader.trees import (
    Assign, Call, Do, Evaluate, Fail, Group, Handle, If, Let, Literal, Print, Read, Resume, Return, Run, Spawn, Store,
    Switch, Take, Unary, While)


class Body:
    """The code of what stands in one body. `used` is how many temporaries are in use, and `labels` how many labels are
    around a statement in its function; in a handler's, inside its loop."""

    def __init__(self, indices, layout):
        self.indices, self.layout = indices, layout

    def whole(self, labels, statements):
        """A body, which returns 0 at its end."""
        return self.statements(labels, statements) + i64_const(0) + RETURN

    # Expressions.

    def expression(self, used, tree):
        makers = {
            Literal: self._literal, Read: self._read, Unary: self._unary, Run: self._run, Call: self._call,
            Do: self._do, Handle: self._handle, Resume: self._resume, Group: self._group}
        return makers[type(tree)](used, tree)

    def expressions(self, used, trees):
        return b''.join(self.expression(used, tree) for tree in trees)

    def _literal(self, _, tree):
        return i64_const(tree.number)

    def _read(self, _, tree):
        return local_get(self.layout.numbers[tree.name])

    def _unary(self, used, tree):
        behind = NEGATE if tree.operator == '-' else IS_ZERO + EXTEND
        return self.expression(used, tree.operand) + behind

    def _run(self, used, tree):
        behind = [_operated(operator, self.expression(used, operand)) for operator, operand in tree.others]
        return self.expression(used, tree.first) + b''.join(behind)

    def _call(self, used, tree, made=call):
        return self.expressions(used, tree.arguments) + made(self.indices.numbers[tree.function])

    def _do(self, used, tree):
        return self.expressions(used, tree.arguments) + suspend(self.indices.tags[tree.effect])

    def _handle(self, used, tree):
        places = list(enumerate(tree.arguments, used))
        continuation = self.indices.continuations[tree.function]
        return b''.join([
            *(self._aside(place, each) for place, each in places),
            self.expressions(used + len(places), tree.parameters),
            *(local_get(self.layout.slot(place, each)) for place, each in places),
            ref_func(self.indices.numbers[tree.function]),
            cont_new(continuation), cont_bind(continuation, COMPUTATION_TYPE),
            call(self.indices.numbers[tree.handler])])

    def _aside(self, place, tree):
        """An argument put where it lies until all arguments are there."""
        return NOP if self.layout.stays(tree) else self.expression(place, tree) + self._set_temporary(place)

    def _set_temporary(self, place):
        return local_set(self.layout.temporaries + place)

    def _resume(self, used, tree):
        handler = self.layout.handler_of(tree.resumption)
        return self._woken(used, tree) + call(self.indices.numbers[handler])

    def _woken(self, used, tree):
        """The parameters, and behind them what is to be handled: a resumption with its value."""
        return b''.join([
            self.expression(used, tree.value), self._set_temporary(used),
            self.expressions(used + 1, tree.parameters), local_get(self.layout.temporaries + used),
            local_get(self.layout.numbers[tree.resumption]), cont_bind(RESUMPTION_TYPE, COMPUTATION_TYPE)])

    def _group(self, used, tree):
        made = self._coroutine_of(tree.function, RESUMPTION_TYPE)
        return self.expression(used, tree.value) + made + resume(RESUMPTION_TYPE, on_switch(self.indices.group_tag))

    def _coroutine_of(self, function, continuation):
        return ref_func(self.indices.numbers[function]) + cont_new(continuation)

    # Statements.

    def statements(self, labels, trees):
        return b''.join(self.statement(labels, tree) for tree in trees)

    def statement(self, labels, tree):
        if isinstance(tree, Fail):
            return UNREACHABLE
        if isinstance(tree, If):
            return self._if(labels, tree)
        if isinstance(tree, While):
            return self._while(labels, tree)
        if isinstance(tree, Return):
            return self._return(labels, tree)
        if isinstance(tree, Store):
            return self._store(tree)
        if isinstance(tree, Take):
            return self._take(tree)
        if isinstance(tree, Spawn):
            return self._coroutine_of(tree.function, COROUTINE_TYPE) + local_set(self.layout.numbers[tree.name])
        if isinstance(tree, Switch):
            return self._switch(tree)
        return self.expression(0, tree.value) + self._ending(tree)

    def _ending(self, tree):
        """What is done with the value of a statement."""
        if isinstance(tree, (Let, Assign)):
            return local_set(self.layout.numbers[tree.name])
        return {Print: call(PRINTER), Evaluate: DROP}[type(tree)]

    def _store(self, tree):
        kept = local_get(self.layout.numbers[tree.resumption])
        return self._place(tree) + kept + table_set(self.indices.tables[tree.slots])

    def _take(self, tree):
        """The place is read, and then emptied, by the number that the temporary still has."""
        table = self.indices.tables[tree.slots]
        taken = table_get(table) + REF_AS_NON_NULL + local_set(self.layout.numbers[tree.name])
        emptied = local_get(self.layout.temporaries) + I32_WRAP_I64 + ref_null(RESUMPTION_TYPE) + table_set(table)
        return self._place(tree) + taken + emptied

    def _switch(self, tree):
        """The coroutine that is given is on top of the number."""
        numbers = self.layout.numbers
        switched = local_get(numbers[tree.target]) + switch(COROUTINE_TYPE, self.indices.group_tag)
        sets = local_set(numbers[tree.coroutine]) + local_set(numbers[tree.name])
        return self.expression(0, tree.value) + switched + sets

    def _place(self, tree):
        """The place of slots that a store or a take is of, by the first temporary."""
        return self.expression(0, tree.place) + place_of(self.layout.temporaries, self.indices.places[tree.slots])

    def _if(self, labels, tree):
        blocks = (self.statements(labels + 1, each) for each in (tree.otherwise, tree.then))
        return self.expression(0, tree.condition) + if_zero(EMPTY, *blocks)

    def _while(self, labels, tree):
        turn = self.expression(0, tree.condition) + IS_ZERO + br_if(1) + self.statements(labels + 2, tree.body)
        return block(EMPTY, loop(EMPTY, turn + br(0)))

    def _return(self, labels, tree):
        value = tree.value
        if isinstance(value, Resume) and self.layout.is_own(value.resumption):
            return self._next_turn(labels, value)
        if isinstance(value, Call):
            return self._call(0, value, return_call)
        return self.expression(0, value) + RETURN

    def _next_turn(self, labels, tree):
        """The loop of the handler begins again, with these parameters and this to be handled."""
        computation = len(self.layout.owner.parameters)
        sets = [local_set(local) for local in range(computation, -1, -1)]
        return self._woken(0, tree) + b''.join(sets) + br(labels)


def _operated(operator, right):
    """The code of an operator and its right operand, behind its left one."""
    if operator == '&&':
        return if_zero(NUMBER, i64_const(0), right + TRUTH)
    if operator == '||':
        return if_zero(NUMBER, right + TRUTH, i64_const(1))
    if operator in COMPARISONS:
        return right + COMPARISONS[operator]
    return right + ARITHMETIC[operator]
