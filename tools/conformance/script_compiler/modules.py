"""The module of a script, in the canonical spelling: its functions, handlers and sections."""

from assembler.encoding import signed
from assembler.instructions import block, local_get, local_set, loop, on, resume
from assembler.modules import as_func, code, export, imported, module, table
from assembler.segments import declared_functions
from assembler.types import limits
from script_compiler.bodies import Body
from script_compiler.indices import (
    COMPUTATION_TYPE, GROUP_TAG_TYPE, PRINTER_TYPE, RESUMPTION, Indices, clause_type, effect_type, function_type,
    handler_type)
from script_compiler.instructions import NUMBER
from script_compiler.layouts import function_layout, function_locals, handler_layouts, handler_locals


def module_of(declarations):
    """The module of declarations whose bodies are trees."""
    indices = Indices(declarations)
    function_types = [function_type(each.parameters) for each in indices.functions]
    handler_types = [handler_type(each.parameters) for each in indices.handlers]
    referred = [indices.numbers[each.name] for each in indices.referred]
    codes = [_function_code(indices, each) for each in indices.functions]
    codes += [_handler_code(indices, each) for each in indices.handlers]
    sections = {
        'types': indices.type_entries(), 'imports': [imported(as_func(PRINTER_TYPE), 'print_i64', 'host')],
        'functions': [indices.type(each) for each in function_types + handler_types],
        'tables': [table(RESUMPTION, limits(each.count, each.count)) for each in indices.slots],
        'tags': [*(indices.type(effect_type(each.count)) for each in indices.effects), GROUP_TAG_TYPE],
        'exports': [export('main', 'func', indices.numbers['main'])],
        'elements': [declared_functions(referred)] if referred else [], 'codes': codes}
    return module(**{kind: items for kind, items in sections.items() if items})


def _function_code(indices, function):
    body = Body(indices, function_layout(indices.kept, function)).whole(0, function.body)
    return code(body, function_locals(indices.kept, function))


def _handler_code(indices, handler):
    return code(loop(NUMBER, _turn(indices, handler)), handler_locals(indices.kept, handler))


def _turn(indices, handler):
    """One turn of a handler's loop: the resume and the return clause, in the blocks of the clauses, the first's the
    innermost."""
    return_layout, clause_layouts = handler_layouts(indices.kept, handler)
    count = len(handler.clauses)
    labels = [on(indices.tags[clause.effect], label) for label, clause in enumerate(handler.clauses)]
    turn = local_get(len(handler.parameters)) + resume(COMPUTATION_TYPE, *labels)
    turn += local_set(return_layout.numbers[handler.result]) + Body(indices, return_layout).whole(count, handler.body)
    for number, (clause, layout) in enumerate(zip(handler.clauses, clause_layouts, strict=True)):
        left = indices.type(clause_type(len(clause.arguments)))
        turn = block(signed(left), turn) + _clause_code(indices, layout, count - 1 - number, clause)
    return turn


def _clause_code(indices, layout, labels, clause):
    """What stands behind the block of a clause, which leaves the arguments and the resumption."""
    names = [*clause.arguments, clause.resumption]
    sets = b''.join(local_set(layout.numbers[each]) for each in reversed(names))
    return sets + Body(indices, layout).whole(labels, clause.body)
