"""The reductions of blocks, branches and calls. Each is a function of the machine and of the immediates.

The machine's place is behind the instruction already.
"""

from executing.ends import Trap
from executing.stores import NULL


def unreachable(_machine):
    raise Trap('unreachable')


def nop(_machine):
    pass


def block(machine, block_type, body):
    parameters, results = machine.arity(block_type)
    machine.enter_label(body, parameters, results, again=machine.place)


def loop(machine, block_type, body):
    """A branch leads back to the loop itself, which takes a reduction of its own."""
    parameters, _ = machine.arity(block_type)
    machine.enter_label(body, parameters, parameters, again=machine.place - 1)


def if_(machine, block_type, then, otherwise):
    block(machine, block_type, then if machine.pop() else otherwise or [])


def br(machine, label):
    machine.branch(label)


def br_if(machine, label):
    if machine.pop():
        machine.branch(label)


def br_table(machine, labels, default):
    number = machine.pop()
    machine.branch(labels[number] if number < len(labels) else default)


def return_(machine):
    machine.return_()


def br_on_null(machine, label):
    """The reference stays where it isn't null."""
    reference = machine.pop()
    if reference is NULL:
        machine.branch(label)
    else:
        machine.push(reference)


def br_on_non_null(machine, label):
    """The reference goes to the label where it isn't null."""
    reference = machine.pop()
    if reference is not NULL:
        machine.push(reference)
        machine.branch(label)


def invoke(machine, address):
    machine.enter_function(address)


def call(machine, function):
    machine.enter_function(machine.instance.functions[function])


def return_call(machine, function):
    machine.replace_frame(machine.instance.functions[function])


def _element(machine, function_type, table):
    """The function that an element of a table refers to, whose number is on top."""
    elements = machine.table(table).elements
    number = machine.pop()
    if number >= len(elements):
        raise Trap('undefined element')
    if elements[number] is NULL:
        raise Trap('null element')
    callee = machine.store.functions[elements[number]]
    if not machine.order.matches(callee.type, machine.instance.types[function_type]):
        raise Trap('call type mismatch')
    return elements[number]


def call_indirect(machine, function_type, table):
    machine.enter_function(_element(machine, function_type, table))


def return_call_indirect(machine, function_type, table):
    machine.replace_frame(_element(machine, function_type, table))


def _referred(machine):
    """The function to which the reference on top refers."""
    reference = machine.pop()
    if reference is NULL:
        raise Trap('null reference')
    return reference


def call_ref(machine, _function_type):
    machine.enter_function(_referred(machine))


def return_call_ref(machine, _function_type):
    machine.replace_frame(_referred(machine))


# An invoke, which no module spells, stands for a function that is begun from outside, and has its address.
RULES = {
    'unreachable': unreachable, 'nop': nop, 'block': block, 'loop': loop, 'if': if_, 'br': br, 'br_if': br_if,
    'br_table': br_table, 'return': return_, 'br_on_null': br_on_null, 'br_on_non_null': br_on_non_null, 'call': call,
    'call_indirect': call_indirect, 'call_ref': call_ref, 'return_call': return_call,
    'return_call_indirect': return_call_indirect, 'return_call_ref': return_call_ref, 'invoke': invoke,
}
