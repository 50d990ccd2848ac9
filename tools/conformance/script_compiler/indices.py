"""The types of the module of a script, each once and as it is spelled, and where types, functions, tables and tags
stand."""

from assembler.encoding import signed
from assembler.types import functype, nullable, rec_group, ref
from script_compiler.instructions import NUMBER
from script_reader.trees import Group, Handle, Spawn, parts_of
from script_reader.rules import COROUTINE, INT

RESUMPTION_TYPE, GROUP_TAG_TYPE, COMPUTATION_TYPE, PRINTER_TYPE, CALLEE_TYPE, COROUTINE_TYPE = range(1, 7)
RESUMPTION = nullable(RESUMPTION_TYPE)
MADE_RESUMPTION = ref(RESUMPTION_TYPE)      # which isn't null
COMPUTATION = nullable(COMPUTATION_TYPE)
COROUTINE_REFERENCE = nullable(COROUTINE_TYPE)
PRINTER = 0     # the function


def value_type(variable_type):
    """The type of a variable in the module."""
    return {INT: NUMBER, COROUTINE: COROUTINE_REFERENCE}.get(variable_type, RESUMPTION)


def continuation_of(function):
    """The type of continuations of the function type of this index, which is written as a signed number."""
    return b'\x5d' + signed(function)


def function_type(parameters):
    """The type of a function of these parameters."""
    return functype([value_type(parameter.type) for parameter in parameters], [NUMBER])


def handler_type(parameters):
    """The type of a handler of these parameters, whose last operand is what it handles."""
    return functype([value_type(parameter.type) for parameter in parameters] + [COMPUTATION], [NUMBER])


def effect_type(count):
    """The type of an effect of so many arguments."""
    return functype([NUMBER] * count, [NUMBER])


def clause_type(count):
    """The type of the block of a clause, which is left with so many arguments and the resumption."""
    return functype([], [NUMBER] * count + [MADE_RESUMPTION])


# The last two are one group, of the functions that coroutines call, and of coroutines.
FIRST_TYPES = [
    functype([NUMBER], [NUMBER]), continuation_of(0), functype([], [NUMBER]), continuation_of(2),
    functype([NUMBER], []), functype([NUMBER, COROUTINE_REFERENCE], [NUMBER]), continuation_of(CALLEE_TYPE)]


def _types_for(declaration):
    if declaration.kind == 'effect':
        return [effect_type(declaration.count)]
    if declaration.kind == 'fn':
        return [function_type(declaration.parameters)]
    if declaration.kind == 'slots':
        return []
    return [handler_type(declaration.parameters)] + [clause_type(len(each.arguments)) for each in declaration.clauses]


class Indices:
    """Where the types, functions, handlers, tables and tags of declarations stand, whose bodies are trees; and how many
    places slots have, and their handlers, by name. The tag of groups is behind those of effects."""

    def __init__(self, declarations):
        self.effects = [each for each in declarations if each.kind == 'effect']
        self.functions = [each for each in declarations if each.kind == 'fn']
        self.handlers = [each for each in declarations if each.kind == 'handler']
        self.slots = [each for each in declarations if each.kind == 'slots']
        self.tags = _numbered(self.effects, 0)
        self.group_tag = len(self.effects)
        self.tables = _numbered(self.slots, 0)
        self.places = {each.name: each.count for each in self.slots}
        self.kept = {each.name: each.kept for each in self.slots}
        self.numbers = _numbered(self.functions + self.handlers, PRINTER + 1)
        bodies = [(each.body, [clause.body for clause in each.clauses]) for each in declarations]
        handled = self._named_in(bodies, Handle)
        self.referred = self._named_in(bodies, (Handle, Group, Spawn))
        wanted = [made for each in declarations for made in _types_for(each)]
        self.types = list(dict.fromkeys(FIRST_TYPES + wanted))
        continuations = [continuation_of(self.type(function_type(each.parameters))) for each in handled]
        self.types = list(dict.fromkeys(self.types + continuations))
        self.continuations = {each.name: self.type(made) for each, made in zip(handled, continuations)}

    def _named_in(self, bodies, kinds):
        """The functions that some tree of these kinds names."""
        names = {part.function for part in parts_of(bodies) if isinstance(part, kinds)}
        return [each for each in self.functions if each.name in names]

    def type_entries(self):
        """The types as they stand in their section, of which two are one group."""
        front, behind = self.types[:CALLEE_TYPE], self.types[COROUTINE_TYPE + 1:]
        return [*front, rec_group(self.types[CALLEE_TYPE:COROUTINE_TYPE + 1]), *behind]

    def type(self, spelled):
        """The index of a type."""
        return self.types.index(spelled)


def _numbered(declarations, first):
    return {declaration.name: first + number for number, declaration in enumerate(declarations)}
