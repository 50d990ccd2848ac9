"""Where the names of bodies are among the locals of their functions, and how many temporaries stand behind them.

`kept` has for each slots declaration its handler, of which the names are that takes bind."""

from itertools import groupby
from typing import NamedTuple

from script_compiler.indices import value_type
from script_compiler.instructions import NUMBER
from script_reader.trees import (
    Call, Do, Group, Handle, If, Let, Read, Resume, Run, Spawn, Store, Switch, Take, Unary, While)
from script_reader.rules import COROUTINE, INT, Parameter


class Layout(NamedTuple):
    """The number and the type of each name's local, the first temporary, and the handler in whose function this is."""

    numbers: dict
    types: dict
    temporaries: int
    owner: object = None

    def handler_of(self, name):
        """The handler of a resumption, or nothing."""
        return None if self.types[name] in (INT, COROUTINE) else self.types[name][1]

    def stays(self, expression):
        """Whether this is a bare name of a resumption or of a coroutine, which is read where it lies."""
        return isinstance(expression, Read) and self.types[expression.name] != INT

    def slot(self, temporary, expression):
        """Where an argument lies until all arguments are there."""
        return self.numbers[expression.name] if self.stays(expression) else self.temporaries + temporary

    def is_own(self, name):
        """Whether this is a resumption of the handler in whose function the body is."""
        return self.owner is not None and self.handler_of(name) == self.owner.name


def function_layout(kept, function):
    """The layout of a function's body."""
    names = function.parameters + bound_in(kept, function.body)
    return _layout(names, range(len(names)), len(names))


def function_locals(kept, function):
    """The locals of a function, in runs of one type."""
    return _locals(bound_in(kept, function.body), temporaries_in(function.body))


def handler_layouts(kept, handler):
    """The layout of a handler's return clause, and those of its clauses."""
    computation = 1
    first = len(handler.parameters) + computation
    rows = _handler_rows(kept, handler)
    temporaries = first + sum(map(len, rows))
    layouts = []
    for names in rows:
        numbers = [*range(len(handler.parameters)), *range(first, first + len(names))]
        layouts.append(_layout(handler.parameters + names, numbers, temporaries, handler))
        first += len(names)
    return layouts[0], layouts[1:]


def handler_locals(kept, handler):
    """The locals of a handler's function, in runs of one type."""
    bodies = [handler.body] + [clause.body for clause in handler.clauses]
    return _locals(sum(_handler_rows(kept, handler), []), max(map(temporaries_in, bodies)))


def _handler_rows(kept, handler):
    """The names of the return clause, and those of each clause."""
    rows = [[Parameter(handler.result, INT), *bound_in(kept, handler.body)]]
    for clause in handler.clauses:
        arguments = [Parameter(name, INT) for name in clause.arguments]
        rows.append(arguments + [Parameter(clause.resumption, ('res', handler.name)), *bound_in(kept, clause.body)])
    return rows


def _layout(names, numbers, temporaries, owner=None):
    places = {each.name: number for each, number in zip(names, numbers, strict=True)}
    return Layout(places, {each.name: each.type for each in names}, temporaries, owner)


def _locals(names, temporaries):
    """One local for each name, and so many temporaries; neighbours of one type are one run."""
    kinds = [value_type(each.type) for each in names] + [NUMBER] * temporaries
    return [(len(list(run)), kind) for kind, run in groupby(kinds)]


def bound_in(kept, statements):
    """The names that are bound in statements, those of blocks within too, in order."""
    names = []
    for statement in statements:
        if isinstance(statement, Let):
            names.append(Parameter(statement.name, INT))
        if isinstance(statement, Take):
            names.append(Parameter(statement.name, ('res', kept[statement.slots])))
        if isinstance(statement, Spawn):
            names.append(Parameter(statement.name, COROUTINE))
        if isinstance(statement, Switch):
            names += [Parameter(statement.name, INT), Parameter(statement.coroutine, COROUTINE)]
        for inner in _blocks(statement):
            names += bound_in(kept, inner)
    return names


def _blocks(statement):
    if isinstance(statement, If):
        return [statement.then, statement.otherwise]
    return [statement.body] if isinstance(statement, While) else []


def temporaries_in(statements):
    """How many temporaries statements take."""
    most = 0
    for statement in statements:
        for field in ('condition', 'value', 'place'):
            if hasattr(statement, field):
                most = max(most, _most(0, getattr(statement, field)))
        if isinstance(statement, (Store, Take)):
            for_the_place = 1
            most = max(most, for_the_place)
        most = max([most, *map(temporaries_in, _blocks(statement))])
    return most


def _most(used, expression):
    """The number of temporaries in use at any time, so many being in use before."""
    if isinstance(expression, Unary):
        return _most(used, expression.operand)
    if isinstance(expression, Group):
        return _most(used, expression.value)
    if isinstance(expression, Run):
        return max(_most(used, expression.first), _most_of(used, [operand for _, operand in expression.others]))
    if isinstance(expression, (Call, Do)):
        return _most_of(used, expression.arguments)
    if isinstance(expression, Handle):
        aside = [_most(used + place, each) for place, each in enumerate(expression.arguments)]
        return max([*aside, _most_of(used + len(aside), expression.parameters)])
    if isinstance(expression, Resume):
        return max(_most(used, expression.value), _most_of(used + 1, expression.parameters))
    return used


def _most_of(used, expressions):
    return max([used, *(_most(used, each) for each in expressions)])
