"""A second reader of the rules: it decodes a module, and says what the validator is to say of it.

It rests on the standard alone. It shares nothing with the assembler, not even tables of opcodes, so that a slip in one
of them shows.
"""

from typing import NamedTuple

from reader.byte_source import Malformed
from reader.context import Context, Invalid
from reader.items import items
from reader.matching import TypeOrder
from reader.module_decoding import Module, decode
from reader.types import FuncType

FUNCTION_EXPORT = 0
GREATEST_TYPES = 10000
GREATEST_PARAMETERS = 1000      # and results
GREATEST_LOCALS = 50000         # parameters among them


class Limit(NamedTuple):
    """A limit that is passed: its name, what passes it, the number found, and the greatest that is allowed."""

    name: str
    what: str
    found: int
    greatest: int


class Reading(NamedTuple):
    """What is to be said of a module, and the fault; the module and its context where they are known."""

    said: str
    fault: Malformed | Limit | Invalid | None = None
    module: Module | None = None
    context: Context | None = None


def answer(data):
    """What is to be said of the module that these bytes spell."""
    return reading_of(data).said


def reading_of(data):
    """The reading of these bytes as a module."""
    try:
        module = decode(data)
    except Malformed as fault:
        return Reading(f'malformed {fault}', fault)
    return judgement_of(module)


def judgement_of(module):
    """The reading of a module that is decoded, or that a text gives: its limits, and then whether it is valid."""
    context = _context(module)
    limit = _passed_limit(module, context.types)
    if limit is not None:
        return Reading(f'limit {limit.name}', limit, module, context)
    for name, check in items(module, context):
        try:
            check()
        except Invalid as fault:
            return Reading(f'invalid {name}', fault, module, context)
    return Reading('ok module', None, module, context)


def _passed_limit(module, types):
    """The first limit that the module passes, or nothing."""
    if len(types) > GREATEST_TYPES:
        return Limit('types', 'the types of the module', len(types), GREATEST_TYPES)
    for number, each in enumerate(types):
        if isinstance(each, FuncType):
            for name, row in ('parameters', each.parameters), ('results', each.results):
                if len(row) > GREATEST_PARAMETERS:
                    return Limit('params', f'the {name} of type {number}', len(row), GREATEST_PARAMETERS)
    for number, (function, code) in enumerate(zip(module.functions, module.codes)):
        count = sum(count for count, _ in code.runs)
        if function < len(types) and isinstance(types[function], FuncType):
            count += len(types[function].parameters)
        if count > GREATEST_LOCALS:
            return Limit('locals', f'the locals of function {number}', count, GREATEST_LOCALS)
    return None


def _context(module):
    """The context of a module, whose imports stand in front."""
    def imported(kind):
        return [described for name, *described in (each.type for each in module.imports) if name == kind]

    def firsts(kind):
        return [first for first, *_ in imported(kind)]

    return Context(
        types=module.types,
        order=TypeOrder(module.groups),
        functions=firsts('func') + module.functions,
        tables=firsts('table') + [table.type for table in module.tables],
        memories=firsts('memory') + module.memories,
        globals=imported('global') + [[each.type, each.mutable] for each in module.globals],
        tags=firsts('tag') + module.tags,
        elements=[element.type for element in module.elements],
        data_segments=len(module.datas),
        declared=_declared(module))


def _declared(module):
    """The functions that exports, and the expressions of elements, globals and tables name."""
    expressions = [item for element in module.elements for item in element.items]
    expressions += [each.initial for each in module.globals]
    expressions += [table.initial or [] for table in module.tables]
    named = {export.index for export in module.exports if export.kind == FUNCTION_EXPORT}
    for expression in expressions:
        named |= {instruction.immediates[0] for instruction in expression if instruction.name == 'ref.func'}
    return named
