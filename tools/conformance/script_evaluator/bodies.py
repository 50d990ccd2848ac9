"""Activations: what a body does, step by step."""

from script_evaluator.ends import Fault
from script_evaluator.numbers import BINARY, CONNECTIVES, UNARY, decides, truth
from script_evaluator.steps import (
    Calls, Gives, Groups, Handles, Performs, Prints, Resumes, Returns, Spawns, Stores, Switches, Takes)
from script_reader.trees import (
    Assign, Call, Do, Evaluate, Fail, Group, Handle, If, Let, Literal, Print, Read, Resume, Return, Run, Spawn, Store,
    Switch, Take, Unary, While)

DONE = Gives(None)


class Body:
    """An activation: its variables, and the handler whose clause it is one of, if it is.

    Each method is a generator that says what the next step does, and is sent what the step gives."""

    def __init__(self, variables, owner=None):
        self.variables, self.owner = variables, owner

    def whole(self, statements):
        """A body, which returns 0 at its end."""
        yield from self.block(statements)
        yield Returns(0)

    def block(self, statements):
        for statement in statements:
            yield from STATEMENTS[type(statement)](self, statement)

    # Statements. What stands behind a return is never asked for, nor what does behind a step that ends the activation.

    def set(self, statement):
        self.variables[statement.name] = yield from self.expression(statement.value)
        yield DONE

    def choose(self, statement):
        condition = yield from self.expression(statement.condition)
        yield DONE
        yield from self.block(statement.then if condition else statement.otherwise)

    def repeat(self, statement):
        while True:
            condition = yield from self.expression(statement.condition)
            yield DONE
            if not condition:
                return
            yield from self.block(statement.body)

    def print(self, statement):
        number = yield from self.expression(statement.value)
        yield Prints(number)

    def return_(self, statement):
        tree = statement.value
        if isinstance(tree, Resume) and self.variables[tree.resumption].handler == self.owner:
            yield from self.resume(tree, ends=True)
        if isinstance(tree, Call):
            yield from self.call(tree, ends=True)
        value = yield from self.expression(tree)
        yield Returns(value)

    def fail(self, _statement):
        raise Fault('failed')
        yield   # it is a generator too

    def store(self, statement):
        place = yield from self.expression(statement.place)
        yield Stores(statement.slots, place, self.variables[statement.resumption])

    def take(self, statement):
        place = yield from self.expression(statement.place)
        self.variables[statement.name] = yield Takes(statement.slots, place)

    def spawn(self, statement):
        self.variables[statement.name] = yield Spawns(statement.function)

    def switch(self, statement):
        """What goes on here again is given a number and a coroutine."""
        value = yield from self.expression(statement.value)
        number, coroutine = yield Switches(self.variables[statement.target], value)
        self.variables |= {statement.name: number, statement.coroutine: coroutine}

    def drop(self, statement):
        yield from self.expression(statement.value)
        yield DONE

    # Expressions, which give their values.

    def expression(self, tree):
        value = yield from EXPRESSIONS[type(tree)](self, tree)
        return value

    def expressions(self, trees):
        values = []
        for tree in trees:
            value = yield from self.expression(tree)
            values.append(value)
        return values

    def literal(self, tree):
        return (yield Gives(tree.number))

    def read(self, tree):
        return (yield Gives(self.variables[tree.name]))

    def unary(self, tree):
        operand = yield from self.expression(tree.operand)
        return (yield Gives(UNARY[tree.operator](operand)))

    def run(self, tree):
        value = yield from self.expression(tree.first)
        for operator, right in tree.others:
            if operator in CONNECTIVES:
                value = yield from self.connected(operator, value, right)
            else:
                operand = yield from self.expression(right)
                value = yield Gives(BINARY[operator](value, operand))
        return value

    def connected(self, operator, left, right):
        if decides(operator, left):
            return (yield Gives(truth(left)))
        yield DONE
        value = yield from self.expression(right)
        return (yield Gives(truth(value)))

    def call(self, tree, ends=False):
        values = yield from self.expressions(tree.arguments)
        return (yield Calls(tree.function, values, ends))

    def do(self, tree):
        values = yield from self.expressions(tree.arguments)
        return (yield Performs(tree.effect, values))

    def handle(self, tree):
        values = yield from self.expressions(tree.arguments)
        parameters = yield from self.expressions(tree.parameters)
        return (yield Handles(tree.function, values, tree.handler, parameters))

    def resume(self, tree, ends=False):
        value = yield from self.expression(tree.value)
        parameters = yield from self.expressions(tree.parameters)
        return (yield Resumes(self.variables[tree.resumption], value, parameters, ends))

    def group(self, tree):
        value = yield from self.expression(tree.value)
        return (yield Groups(tree.function, value))


STATEMENTS = {
    Let: Body.set, Assign: Body.set, If: Body.choose, While: Body.repeat, Print: Body.print, Return: Body.return_,
    Fail: Body.fail, Store: Body.store, Take: Body.take, Spawn: Body.spawn, Switch: Body.switch, Evaluate: Body.drop}
EXPRESSIONS = {
    Literal: Body.literal, Read: Body.read, Unary: Body.unary, Run: Body.run, Call: Body.call, Do: Body.do,
    Handle: Body.handle, Resume: Body.resume, Group: Body.group}
