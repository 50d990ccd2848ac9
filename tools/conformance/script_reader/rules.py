"""The rules of scripts, over trees."""

from typing import NamedTuple

from script_reader.derivations import Node
from script_reader.tokens import Token

INT = 'int'     # the type of a number; that of a resumption is its handler's name in a pair
COROUTINE = 'coro'
RUNS = ('expr', 'and', 'cmp', 'sum', 'prod')
GREATEST_PLACES = 65536     # of slots


class Parameter(NamedTuple):
    """A parameter of a function or a handler, and the tokens of its names: its own, and the one behind `res`."""

    name: str
    type: object
    tokens: tuple = ()


class Declaration(NamedTuple):
    """A declaration: effect, fn, handler or slots; its number of arguments or of places, or its parameters, bodies and
    clauses. Slots keep resumptions of the handler `kept`. Its tokens are those that stand in no part of it."""

    kind: str
    name: str
    count: int
    parameters: list
    body: object
    result: str
    clauses: list
    tokens: tuple = ()
    kept: str = None

    @property
    def token(self):
        """The token of its name."""
        return self.tokens[1]


class Clause(NamedTuple):
    """A clause of a handler for an effect, and the tokens of its names."""

    effect: str
    arguments: list
    resumption: str
    body: object
    tokens: tuple = ()


class Breach(NamedTuple):
    """The number of a declaration, the rule that it breaks, and the token at which it does; nothing at the end."""

    declaration: int
    rule: int
    token: Token | None


def declarations_in(tree):
    """The declarations of a script, whose bodies stay as they are in the tree."""
    return [_declaration(node) for node in tree.parts]


def breach_in(declarations):
    """The breach of the first declaration that breaks a rule, of the least rule that it breaks, or nothing."""
    firsts = {}
    for declaration in declarations:
        firsts.setdefault(declaration.name, declaration)
    for number, declaration in enumerate(declarations):
        rules = _Rules(firsts)
        rules.declaration(declaration, declarations[:number])
        if rules.broken:
            rule = min(rules.broken)
            return Breach(number, rule, rules.broken[rule])
    main = firsts.get('main')
    if main is None or main.kind != 'fn' or main.parameters:
        return Breach(len(declarations), 18, None if main is None else main.token)
    return None


def _kinds(node):
    return [part.kind if isinstance(part, Token) else part.name for part in node.parts]


def _nodes(node, name):
    return [part for part in node.parts if isinstance(part, Node) and part.name == name]


def _tokens(node):
    return tuple(part for part in node.parts if isinstance(part, Token))


def _name_tokens(node):
    return tuple(token for token in _tokens(node) if token.kind == 'NAME')


def _names(node):
    return [token.text for token in _name_tokens(node)]


def _first_token(node):
    """The token with which a node begins."""
    return node if isinstance(node, Token) else _first_token(node.parts[0])


def _declaration(node):
    kind, (name, *more) = node.parts[0].kind, _names(node)
    if kind == 'slots':
        return Declaration(kind, name, _number_in(node), [], None, None, [], _tokens(node), more[0])
    count = _number_in(node) if kind == 'effect' else 0
    parameters = [_parameter(each) for params in _nodes(node, 'params') for each in _nodes(params, 'param')]
    blocks = _nodes(node, 'block')
    return Declaration(
        kind, name, count, parameters, blocks[0] if blocks else None, more[0] if more else None,
        [_clause(each) for each in _nodes(node, 'clause')], _tokens(node))


def _number_in(node):
    """The number that stands in a node."""
    return int(next(token.text for token in _tokens(node) if token.kind == 'INT'))


def _parameter(node):
    name, *handler = _names(node)
    other = COROUTINE if 'coro' in _kinds(node) else INT
    return Parameter(name, ('res', handler[0]) if handler else other, _name_tokens(node))


def _clause(node):
    effect, *arguments, resumption = _names(node)
    return Clause(effect, arguments, resumption, _nodes(node, 'block')[0], _name_tokens(node))


def _number(token):
    """A name that is bound to a number."""
    return Parameter(token.text, INT, (token,))


class _Rules:
    """The rules that a declaration breaks, each with the first token at which it does. Value names are bound in scopes,
    the innermost last."""

    def __init__(self, firsts):
        self.firsts = firsts
        self.broken = {}

    def found(self, kind, name):
        """The declaration of a name, where it is of this kind."""
        declaration = self.firsts.get(name)
        return declaration if declaration is not None and declaration.kind == kind else None

    def test(self, rule, token, holds):
        if holds:
            self.broken.setdefault(rule, token)

    def test_count(self, rule, parts, greatest):
        """Break a rule with the first part of a list that is too many."""
        if len(parts) > greatest:
            self.test(rule, parts[greatest].tokens[0], True)

    def declaration(self, declaration, earlier):
        self.test(1, declaration.token, any(other.name == declaration.name for other in earlier))
        if declaration.kind == 'effect':
            self.test(2, declaration.tokens[3], declaration.count > 8)
            return
        if declaration.kind == 'slots':
            self.slots(declaration)
            return
        self.test_count(3, declaration.parameters, 8)
        for parameter in declaration.parameters:
            absent = _is_resumption(parameter.type) and not self.found('handler', parameter.type[1])
            self.test(5, parameter.tokens[-1], absent)
        bound = [*declaration.parameters]
        if declaration.kind == 'handler':
            self.test_count(4, declaration.clauses, 16)
            self.clauses(declaration)
            bound.append(_number(next(each for each in declaration.tokens[2:] if each.kind == 'NAME')))
        self.body(bound, declaration.body)

    def slots(self, declaration):
        *_, handler, _, number, _, _ = declaration.tokens
        self.test(5, handler, not self.found('handler', declaration.kept))
        self.test(20, number, not 1 <= declaration.count <= GREATEST_PLACES)

    def clauses(self, handler):
        effects = set()
        for clause in handler.clauses:
            effect = self.found('effect', clause.effect)
            name, *arguments, resumption = clause.tokens
            self.test(8, name, effect is None)
            self.test(7, name, effect is not None and clause.effect in effects)
            self.test(9, name, effect is not None and len(clause.arguments) != effect.count)
            effects.add(clause.effect)
            bound = [*map(_number, arguments), Parameter(clause.resumption, ('res', handler.name), (resumption,))]
            self.body([*handler.parameters, *bound], clause.body)

    def body(self, bound, block):
        names = set()
        for token in [parameter.tokens[0] for parameter in bound] + _bound_in(block):
            self.test(6, token, token.text in names)
            names.add(token.text)
        self.block({parameter.name: parameter.type for parameter in bound}, block)

    def block(self, scope, block):
        scope = dict(scope)
        for statement in _nodes(block, 'stmt'):
            self.statement(scope, statement)

    def statement(self, scope, statement):
        kinds = _kinds(statement)
        bindings = {'store': self.store, 'take': self.take, 'spawn': self.spawn, 'switch': self.switch}
        if kinds[0] in bindings:
            bindings[kinds[0]](scope, statement)
            return
        for expression in _nodes(statement, 'expr'):
            self.expression(scope, expression)
        for block in _nodes(statement, 'block'):
            self.block(scope, block)
        if kinds[0] == 'let':
            scope[_names(statement)[0]] = INT
        elif kinds[0] == 'NAME':
            self.name(scope, _name_tokens(statement)[0])

    def store(self, scope, statement):
        token, stored = _name_tokens(statement)
        slots = self.place(scope, token, statement)
        self.name(scope, stored, whole=scope.get(stored.text) != COROUTINE)
        if slots is not None and stored.text in scope:
            self.test(21, stored, not self.is_resumption_of(slots.kept, scope[stored.text]))

    def take(self, scope, statement):
        """The name is bound also where there are no such slots; then its type is of no handler, unless one has the name
        of the slots."""
        name, token = _name_tokens(statement)
        slots = self.place(scope, token, statement)
        scope[name.text] = ('res', token.text if slots is None else slots.kept)

    def spawn(self, scope, statement):
        """The name is bound also where there is no such function."""
        name, function = _name_tokens(statement)
        self.function(function, [INT, COROUTINE])
        scope[name.text] = COROUTINE

    def switch(self, scope, statement):
        """The target isn't read; the names are bound behind the expression."""
        number, coroutine, target = _name_tokens(statement)
        self.test(10, target, target.text not in scope)
        self.test(23, target, scope.get(target.text, COROUTINE) != COROUTINE)
        self.expression(scope, _nodes(statement, 'expr')[0])
        scope[number.text] = INT
        scope[coroutine.text] = COROUTINE

    def function(self, token, types):
        """The function of a spawn or of a group, whose parameters are to be of these types."""
        function = self.found('fn', token.text)
        self.test(12, token, function is None)
        unsuited = function is not None and [each.type for each in function.parameters] != types
        self.test(22, token, unsuited)

    def place(self, scope, token, statement):
        """The slots of a place, where they are declared."""
        slots = self.found('slots', token.text)
        self.test(19, token, slots is None)
        self.expression(scope, _nodes(statement, 'expr')[0])
        return slots

    def is_resumption_of(self, handler, given):
        """Whether a value of this type suits where a resumption of a handler is wanted; one of a handler that isn't
        declared suits everywhere."""
        return _is_resumption(given) and (given[1] == handler or not self.found('handler', given[1]))

    def name(self, scope, token, whole=False):
        """A name that is assigned, or read, as a whole argument or not; a stored one counts as such."""
        self.test(10, token, token.text not in scope)
        self.test(11, token, not whole and scope.get(token.text, INT) != INT)

    def expression(self, scope, node, whole=False):
        if node.name != 'prim':
            for part in node.parts:
                if isinstance(part, Node) and part.name not in ('comparison', 'summing', 'multiplying', 'prefix'):
                    self.expression(scope, part, whole and len(node.parts) == 1)
            return
        self.primary(scope, node, whole)

    def primary(self, scope, node, whole):
        kinds, names = _kinds(node), _name_tokens(node)
        if kinds == ['NAME']:
            self.name(scope, names[0], whole)
        elif kinds[0] == 'NAME':
            self.call(scope, 12, 'fn', names[0], self.lists(node)[0])
        elif kinds[0] == '(':
            self.expression(scope, node.parts[1], whole)
        elif kinds[0] == 'do':
            self.do(scope, names[0], self.lists(node)[0])
        elif kinds[0] == 'handle':
            self.call(scope, 12, 'fn', names[0], self.lists(node)[0])
            self.call(scope, 14, 'handler', names[1], self.lists(node)[1])
        elif kinds[0] == 'resume':
            self.resume(scope, node, names[0])
        elif kinds[0] == 'group':
            self.function(names[0], [INT])
            self.expression(scope, _nodes(node, 'expr')[0])

    def lists(self, node):
        """The lists of arguments between the parentheses of a node, in order."""
        lists, kinds = [], _kinds(node)
        for place, kind in enumerate(kinds):
            if kind == '(' and kinds[place + 1] in (')', 'args'):
                lists.append(_nodes(node.parts[place + 1], 'expr') if kinds[place + 1] == 'args' else [])
        return lists

    def resume(self, scope, node, token):
        self.expression(scope, _nodes(node, 'expr')[0])
        self.test(10, token, token.text not in scope)
        bound = scope.get(token.text, INT)
        self.test(17, token, token.text in scope and not _is_resumption(bound))
        handler = self.found('handler', bound[1]) if _is_resumption(bound) else None
        self.arguments(scope, token, handler, self.lists(node)[-1])

    def call(self, scope, rule, kind, token, arguments):
        declaration = self.found(kind, token.text)
        self.test(rule, token, declaration is None)
        self.arguments(scope, token, declaration, arguments)

    def do(self, scope, token, arguments):
        effect = self.found('effect', token.text)
        self.test(13, token, effect is None)
        self.test(15, token, effect is not None and len(arguments) != effect.count)
        for argument in arguments:
            self.expression(scope, argument)

    def arguments(self, scope, token, declaration, arguments):
        """Arguments behind a name for the parameters of its declaration, where it is there."""
        for argument in arguments:
            self.expression(scope, argument, whole=True)
        if declaration is None:
            return
        self.test(15, token, len(arguments) != len(declaration.parameters))
        if len(arguments) == len(declaration.parameters):
            for parameter, argument in zip(declaration.parameters, arguments):
                unsuited = not self.suits(scope, parameter.type, _bare_name(argument))
                self.test(16, _first_token(argument), unsuited)

    def suits(self, scope, wanted, name):
        """Whether an argument, a bare name or another expression, suits a parameter of this type."""
        given = None if name is None else scope.get(name)
        if wanted == INT:
            return given in (None, INT)
        if wanted == COROUTINE:
            return given == COROUTINE
        return given is not None and self.is_resumption_of(wanted[1], given)


def _is_resumption(type):
    """Whether this type is of resumptions."""
    return type not in (INT, COROUTINE)


def _bare_name(node):
    """The name that an expression is, maybe in parentheses, or nothing."""
    while isinstance(node, Node) and _kinds(node) not in (['NAME'], ['INT']):
        if node.name == 'prim' and _kinds(node) == ['(', 'expr', ')']:
            node = node.parts[1]
        elif len(node.parts) == 1:
            node = node.parts[0]
        else:
            return None
    return _names(node)[0] if _kinds(node) == ['NAME'] else None


def _bound_in(node):
    """The tokens of the names that are bound within, by lets, takes, spawns and switches."""
    counts = {'let': 1, 'take': 1, 'spawn': 1, 'switch': 2}
    if node.name == 'stmt' and _kinds(node)[0] in counts:
        return list(_name_tokens(node))[:counts[_kinds(node)[0]]]
    return [token for part in node.parts if isinstance(part, Node) for token in _bound_in(part)]
