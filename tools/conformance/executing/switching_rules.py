"""The reductions of stack switching. Each is a function of the machine and of the immediates."""

from executing.contexts import of_function
from executing.ends import Trap
from executing.stores import NULL


def _context(continuation):
    """The context of a continuation that is given by its reference, and is not consumed by this."""
    if continuation is NULL:
        raise Trap('null reference')
    if continuation.context is None:
        raise Trap('consumed continuation')
    return continuation.context


def cont_new(machine, _continuation_type):
    function = machine.pop()
    if function is NULL:
        raise Trap('null reference')
    machine.push(machine.store.make_continuation(of_function(function)))


def cont_bind(machine, source_type, target_type):
    """The arguments are put into the hole, beneath those that are given later."""
    continuation = machine.pop()
    context = _context(continuation)
    count = machine.parameters(source_type) - machine.parameters(target_type)
    context.innermost.operands.extend(machine.take(count))
    machine.store.consume(continuation)
    machine.push(machine.store.make_continuation(context))


def resume(machine, continuation_type, clauses):
    continuation = machine.pop()
    context = _context(continuation)
    arguments = machine.take(machine.parameters(continuation_type))
    machine.enter_handle(clauses)
    machine.enter_context(context, arguments)
    machine.store.consume(continuation)


def _handle_of(machine, kind, tag):
    """The place among the handles of the innermost one that has a clause of this kind for the tag of this address, and
    that clause."""
    for place in range(len(machine.handles) - 1, -1, -1):
        handle = machine.handles[place]
        for clause in handle.clauses:
            if clause[0] == kind and handle.around.instance.tags[clause[1]] == tag:
                return place, clause
    raise Trap(f'unhandled {tag}')


def suspend(machine, tag):
    """The branch that is left for the clause is reduced next."""
    address = machine.instance.tags[tag]
    place, (_, _, label) = _handle_of(machine, 'on', address)
    arguments = machine.take(machine.counts(machine.store.tags[address])[0])
    captured = machine.capture(place)
    machine.leave_handle_to(label)
    machine.operands += [*arguments, machine.store.make_continuation(captured)]


def switch(machine, continuation_type, tag):
    """The one that is captured takes the place of the target among those that are live."""
    target = machine.pop()
    context = _context(target)
    place, _ = _handle_of(machine, 'switch', machine.instance.tags[tag])
    arguments = machine.take(machine.parameters(continuation_type) - 1)
    captured = machine.capture(place)
    machine.enter_context(context, arguments)
    machine.store.consume(target)
    machine.push(machine.store.make_continuation(captured))


RULES = {
    'cont.new': cont_new, 'cont.bind': cont_bind, 'resume': resume, 'suspend': suspend, 'switch': switch,
}
