"""Statements and expressions as trees, of which parentheses are no part."""

from typing import NamedTuple

from script_reader.derivations import Node
from script_reader.tokens import Token

RUNS = ('expr', 'and', 'cmp', 'sum', 'prod')
OPERATORS = ('comparison', 'summing', 'multiplying', 'prefix')


class Literal(NamedTuple):
    """A number."""

    number: int


class Read(NamedTuple):
    """A value name that is read."""

    name: str


class Unary(NamedTuple):
    """An operator in front of its operand."""

    operator: str
    operand: object


class Run(NamedTuple):
    """Operators of one level, which group from the left: pairs of an operator and its right operand."""

    first: object
    others: list


class Call(NamedTuple):
    """f(es)."""

    function: str
    arguments: list


class Do(NamedTuple):
    """do op(es)."""

    effect: str
    arguments: list


class Handle(NamedTuple):
    """handle f(es) with h(ps)."""

    function: str
    arguments: list
    handler: str
    parameters: list


class Resume(NamedTuple):
    """resume k(e) with (ps)."""

    resumption: str
    value: object
    parameters: list


class Group(NamedTuple):
    """group f(e)."""

    function: str
    value: object


class Let(NamedTuple):
    """A name that is bound."""

    name: str
    value: object


class Assign(NamedTuple):
    """A name that is assigned."""

    name: str
    value: object


class If(NamedTuple):
    """A choice; without an `else` the second block is empty."""

    condition: object
    then: list
    otherwise: list


class While(NamedTuple):
    """A loop."""

    condition: object
    body: list


class Print(NamedTuple):
    """print e."""

    value: object


class Return(NamedTuple):
    """return e."""

    value: object


class Fail(NamedTuple):
    """fail."""


class Store(NamedTuple):
    """store s[e] = k."""

    slots: str
    place: object
    resumption: str


class Take(NamedTuple):
    """take k = s[e], which binds k."""

    name: str
    slots: str
    place: object


class Spawn(NamedTuple):
    """spawn t = f, which binds t."""

    name: str
    function: str


class Switch(NamedTuple):
    """switch x, u = t(e), which binds x and u."""

    name: str
    coroutine: str
    target: str
    value: object


class Evaluate(NamedTuple):
    """An expression whose value is dropped."""

    value: object


def with_trees(declaration):
    """A declaration whose bodies are lists of statements."""
    clauses = [clause._replace(body=_block(clause.body)) for clause in declaration.clauses]
    body = [] if declaration.body is None else _block(declaration.body)
    return declaration._replace(body=body, clauses=clauses)


def parts_of(tree):
    """All statements and expressions of a tree, or of a list of them."""
    left = [tree]
    while left:
        part = left.pop()
        if isinstance(part, (tuple, list)):
            left += part
            if hasattr(part, '_fields'):
                yield part


def _kind(part):
    return part.kind if isinstance(part, Token) else part.name


def _nodes(node, name):
    return [part for part in node.parts if isinstance(part, Node) and part.name == name]


def _block(node):
    return [_statement(each) for each in _nodes(node, 'stmt')]


def _statement(node):
    kind, values = _kind(node.parts[0]), [_expression(each) for each in _nodes(node, 'expr')]
    blocks = [_block(each) for each in _nodes(node, 'block')]
    if kind == 'let':
        return Let(node.parts[1].text, *values)
    if kind == 'NAME':
        return Assign(node.parts[0].text, *values)
    if kind == 'if':
        return If(*values, *blocks) if len(blocks) == 2 else If(*values, *blocks, [])
    if kind == 'while':
        return While(*values, *blocks)
    if kind == 'store':
        return Store(node.parts[1].text, *values, node.parts[6].text)
    if kind == 'take':
        return Take(node.parts[1].text, node.parts[3].text, *values)
    if kind == 'spawn':
        return Spawn(node.parts[1].text, node.parts[3].text)
    if kind == 'switch':
        return Switch(node.parts[1].text, node.parts[3].text, node.parts[5].text, *values)
    return {'print': Print, 'return': Return, 'fail': Fail, 'expr': Evaluate}[kind](*values)


def _expression(node):
    if node.name in RUNS:
        first, *rest = [_operator(part) if _is_operator(part) else _expression(part) for part in node.parts]
        return Run(first, list(zip(rest[::2], rest[1::2]))) if rest else first
    if node.name == 'unary':
        *operator, operand = node.parts
        return Unary(_operator(operator[0]), _expression(operand)) if operator else _expression(operand)
    return _primary(node)


def _is_operator(part):
    return isinstance(part, Token) or part.name in OPERATORS


def _operator(part):
    return part.text if isinstance(part, Token) else part.parts[0].text


def _primary(node):
    kind = _kind(node.parts[0])
    if kind == 'INT':
        return Literal(int(node.parts[0].text))
    if kind == '(':
        return _expression(node.parts[1])
    names = [part.text for part in node.parts if isinstance(part, Token) and part.kind == 'NAME']
    lists = _lists(node)
    if kind == 'NAME':
        return Call(names[0], lists[0]) if lists else Read(names[0])
    if kind == 'do':
        return Do(names[0], lists[0])
    if kind == 'handle':
        return Handle(names[0], lists[0], names[1], lists[1])
    value = _expression(_nodes(node, 'expr')[0])
    return Group(names[0], value) if kind == 'group' else Resume(names[0], value, lists[0])


def _lists(node):
    """The lists of arguments, in order: what stands between parentheses and is no single expression."""
    behind = [node.parts[place + 1] for place, part in enumerate(node.parts) if _kind(part) == '(']
    return [
        [_expression(each) for each in _nodes(part, 'expr')] if isinstance(part, Node) else []
        for part in behind if _kind(part) != 'expr']
