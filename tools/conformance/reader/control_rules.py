"""The rules of blocks, branches and calls. Each is a function of the block around and of the immediates."""

from reader.context import Invalid, entry, require
from reader.matching import all_match, matches
from reader.types import FUNCREF, I32, BottomRef, Ref, spelled_row


def unreachable(block):
    block.leave()


def nop(_block):
    pass


def _arrow(context, block_type):
    """The parameters and the results of a block type."""
    if isinstance(block_type, list):
        require(all(context.has_type(result) for result in block_type), f'a result below type {len(context.types)}')
        return [], block_type
    function_type = context.function_type(block_type)
    return function_type.parameters, function_type.results


def block_(block, block_type, instructions):
    parameters, results = _arrow(block.context, block_type)
    block.take(*parameters)
    block.judge_inner('block', instructions, results, parameters, results)
    block.give(*results)


def loop(block, block_type, instructions):
    parameters, results = _arrow(block.context, block_type)
    block.take(*parameters)
    block.judge_inner('loop', instructions, parameters, parameters, results)
    block.give(*results)


def if_(block, block_type, then, otherwise):
    parameters, results = _arrow(block.context, block_type)
    block.take(*parameters, I32)
    block.judge_inner('then branch', then, results, parameters, results)
    if otherwise is None:
        require(all_match(block.context, parameters, results), 'an else, since the parameters don\'t match the results')
    else:
        block.judge_inner('else branch', otherwise, results, parameters, results)
    block.give(*results)


def br(block, label):
    block.take(*block.label(label))
    block.leave()


def br_if(block, label):
    taken = block.label(label)
    block.take(*taken, I32)
    block.give(*taken)


def br_table(block, labels, default):
    taken = [block.label(label) for label in [*labels, default]]
    block.take(I32)
    count = len(taken[0])
    require(all(len(types) == count for types in taken), 'labels that take as many operands as one another')
    operands = [block.pop() for _ in range(count)][::-1]
    for types in taken:
        if not all_match(block.context, operands, types):
            raise Invalid(f'operands {spelled_row(types)}, which a label takes')
    block.leave()


def return_(block):
    block.take(*block.returned)
    block.leave()


def br_on_null(block, label):
    taken = block.label(label)
    operand = block.pop_ref()
    block.take(*taken)
    block.give(*taken, not_null(operand))


def not_null(ref_type):
    """The type of the references of this type that are not null."""
    return BottomRef(False) if isinstance(ref_type, BottomRef) else Ref(False, ref_type.heap)


def br_on_non_null(block, label):
    taken = block.label(label)
    require(taken and isinstance(taken[-1], Ref), 'a label that takes a reference as its last operand')
    block.take(*taken[:-1], Ref(True, taken[-1].heap))
    block.give(*taken[:-1])


# What a call names: the type of a function, and the types of the operands that tell which function it is.


def _function(block, function):
    return [block.context.function_type(entry(block.context.functions, function, 'function'))]


def _element(block, function_type, table):
    is_callable = matches(block.context, entry(block.context.tables, table, 'table'), FUNCREF)
    require(is_callable, 'a table of functions')
    return block.context.function_type(function_type), I32


def _reference(block, function_type):
    return block.context.function_type(function_type), Ref(True, function_type)


def _apply(block, function_type, *callee):
    """Take the parameters of a function, and above them what tells the function, and give the results."""
    block.take(*function_type.parameters, *callee)
    block.give(*function_type.results)


def _apply_at_last(block, function_type, *callee):
    """The same, where the results are those of the function around, and nothing goes on behind."""
    returned = block.returned
    require(all_match(block.context, function_type.results, returned), f'a callee that gives {spelled_row(returned)}')
    block.take(*function_type.parameters, *callee)
    block.leave()


def call(block, function):
    _apply(block, *_function(block, function))


def call_indirect(block, function_type, table):
    _apply(block, *_element(block, function_type, table))


def call_ref(block, function_type):
    _apply(block, *_reference(block, function_type))


def return_call(block, function):
    _apply_at_last(block, *_function(block, function))


def return_call_indirect(block, function_type, table):
    _apply_at_last(block, *_element(block, function_type, table))


def return_call_ref(block, function_type):
    _apply_at_last(block, *_reference(block, function_type))


RULES = {
    'unreachable': unreachable, 'nop': nop, 'block': block_, 'loop': loop, 'if': if_, 'br': br, 'br_if': br_if,
    'br_table': br_table, 'return': return_, 'br_on_null': br_on_null, 'br_on_non_null': br_on_non_null, 'call': call,
    'call_indirect': call_indirect, 'call_ref': call_ref, 'return_call': return_call,
    'return_call_indirect': return_call_indirect, 'return_call_ref': return_call_ref,
}
