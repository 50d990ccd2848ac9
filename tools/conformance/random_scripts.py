"""Scripts at random that break no rule, and whose loops end.

A function calls and handles functions behind it alone, and a handler the last one alone. Slots keep resumptions, each
of which goes on once at most, so that runs end with slots too; and a coroutine is made of functions behind alone.
"""

from typing import NamedTuple

NUMBER = None       # the type of a number; that of a resumption is the name of its handler
COROUTINE = 'coro'
LITERALS = ['0', '1', '2', '3', '5', '7', '10', '64', '128', '1000', '2147483648', '9223372036854775807']


class Function(NamedTuple):
    """A function or a handler: its name, and the types of its parameters."""

    name: str
    types: list


class Slots(NamedTuple):
    """A slots declaration: its name, the name of its handler, and how many places it has."""

    name: str
    handler: str
    count: int


class RandomScript:
    """One script; `text` is its text. Without slots and coroutines, the same script comes of the same random numbers as
    before these were in the language. `tailing` is how likely a return is made a tail call, beside those that are so by
    chance."""

    def __init__(self, random, has_slots=False, tailing=0, has_coroutines=False):
        self.random, self.tailing, self.has_coroutines = random, tailing, has_coroutines
        self.effects = [(f'e{number}', random.choice([0, 0, 1, 1, 2, 3])) for number in range(random.randint(1, 2))]
        self.handlers = [
            Function(f'h{number}', self._types(number, 0.2)) for number in range(random.randint(1, 2))]
        self.functions = [Function('main', [])] + [
            Function(f'f{number}', self._types(number and len(self.handlers), 0.25))
            for number in range(random.randint(2, 3))]
        if has_coroutines:
            self._add_coroutines()
        self.slots = self._all_slots() if has_slots else []
        self.lets = 0
        parts = [f'effect {name}/{count};' for name, count in self.effects]
        parts += [self._function(number, each) for number, each in enumerate(self.functions)]
        parts += [self._handler(each) for each in self.handlers]
        parts += [f'slots {each.name}: res {each.handler} [{each.count}];' for each in self.slots]
        random.shuffle(parts)
        self.text = '\n'.join(parts) + '\n'

    def _add_coroutines(self):
        """A function for groups and some for coroutines, before the last function; the last of several handlers has a
        coroutine as its last parameter."""
        made = [Function('g', [NUMBER])] + [
            Function(f'c{number}', [NUMBER, COROUTINE]) for number in range(self.random.randint(1, 2))]
        self.functions[-1:-1] = made
        if len(self.handlers) > 1:
            self.handlers[-1].types.append(COROUTINE)

    def _all_slots(self):
        """Slots of the first handler, and maybe of any others."""
        handlers = [self.handlers[0]] + self.random.sample(self.handlers, self.random.randint(0, 1))
        return [
            Slots(f's{number}', handler.name, self.random.choice([1, 1, 2, 3]))
            for number, handler in enumerate(handlers)]

    def _types(self, handlers, likely):
        """Types of parameters, some of them of resumptions of the first so many handlers."""
        return [
            f'h{self.random.randrange(handlers)}' if handlers and self.random.random() < likely else NUMBER
            for _ in range(self.random.randint(0, 2))]

    # Declarations.

    def _parameters(self, declared):
        scope = {f'p{number}': type for number, type in enumerate(declared.types)}
        words = {NUMBER: '', COROUTINE: ': coro'}
        return scope, ', '.join(name + words.get(type, f': res {type}') for name, type in scope.items())

    def _function(self, number, function):
        scope, parameters = self._parameters(function)
        self.first = number + 1
        self.taking = 0.2 if number == 0 else 0.02      # how likely a part takes; main does where something is stored
        self.doing = 0.5 if 0 < number < len(self.functions) - 1 else 0     # how likely a part performs an effect
        self.is_handling = True
        if function.name[0] in 'gc':
            return self._function_that_switches(function, scope, parameters)
        return f'fn {function.name}({parameters}) {{ {self._beginning(number, scope)}{self._body(scope, 2)} }}'

    def _function_that_switches(self, function, scope, parameters):
        """One for groups, which begins with a spawn, or one for coroutines; both switch then."""
        self.doing = 0.05
        front = f'{self._spawn(scope)} ' if function.name == 'g' else f'print {list(scope)[0]}; '
        front += f'{self._switch(scope)} '
        return f'fn {function.name}({parameters}) {{ {front}{self._body(scope, 2)} }}'

    def _beginning(self, number, scope):
        """Main begins with the first function in a handle, and that with an effect. Behind the handle main takes, where
        there are slots."""
        handler, function, (effect, count) = self.handlers[0], self.functions[1], self.effects[0]
        group = f'print {self._group(scope, 0)}; ' if number < 2 and self.has_coroutines else ''
        if number == 0:
            values, parameters = (self._list(scope, 0, each.types) for each in (function, handler))
            take = f'{self._take(scope)} ' if self.slots else ''
            return f'print handle {function.name}({values}) with {handler.name}({parameters}); {take}{group}'
        return f'print do {effect}({self._list(scope, 0, [NUMBER] * count)}); {group}' if number == 1 else ''

    def _handler(self, handler):
        """Clauses call the last function alone, which performs no effect, and return clauses handle none."""
        scope, parameters = self._parameters(handler)
        self.first, self.doing, self.is_handling = len(self.functions) - 1, 0.05, False
        self.taking = 0.02
        clauses = [f'return(x) {{ {self._body(scope | {"x": NUMBER}, 1)} }}']
        self.is_handling = True
        for effect, count in self._handled(handler):
            names = [f'a{number}' for number in range(count)]
            inner = scope | dict.fromkeys(names, NUMBER) | {'k': handler.name}
            body = self._storing_first(inner) + self._body(inner, 1)
            clauses.append(f'on {effect}({", ".join(names)}) k {{ {body} }}')
        return f'handler {handler.name}({parameters}) {{ ' + ' '.join(clauses) + ' }'

    def _handled(self, handler):
        """The effects of a handler's clauses: all, or some, but for the first handler."""
        least = len(self.effects) if handler.name == 'h0' else 1
        return self.random.sample(self.effects, self.random.randint(least, len(self.effects)))

    # Statements.

    def _body(self, scope, depth):
        text = self._block(dict(scope), depth)
        return f'{text} {self._return(scope)}' if self.random.random() < 0.9 else text

    def _return(self, scope):
        functions = self._callees(scope)
        if self.tailing and functions and self.random.random() < self.tailing:
            return f'return {self._call(scope, 1, functions)};'
        resumptions = self._resumptions(scope)
        if resumptions and self.random.random() < (0.2 if self.slots else 0.8):
            return f'return {self._resume(scope, 1, self.random.choice(resumptions))};'
        return f'return {self._expression(scope, 2)};'

    def _block(self, scope, depth):
        """Statements, which bind names in this scope."""
        return ' '.join(self._statement(scope, depth) for _ in range(self.random.randint(1, 2)))

    def _statement(self, scope, depth):
        if self.slots and self.random.random() < self.taking:
            return self._take(scope)
        if self.has_coroutines and self.random.random() < (0.4 if depth == 2 else 0.03):
            statement = self._switch(scope) if self.random.random() < 0.75 else self._spawn(scope)
            if statement:
                return statement
        kind = self.random.random()
        if kind < 0.3:
            return f'print {self._expression(scope, 2)};'
        if kind < 0.5:
            value = self._expression(scope, 2)
            return f'let {self._bound(scope, "v")} = {value};'
        if kind < 0.65:
            assigned = [name for name, type in scope.items() if type is NUMBER and name[0] != 'i']
            if assigned:
                return f'{self.random.choice(assigned)} = {self._expression(scope, 1)};'
        if kind < 0.75 or depth == 0:
            return f'{self._expression(scope, 1)};'
        if kind < 0.88:
            otherwise = f' else {{ {self._block(dict(scope), depth - 1)} }}' if self.random.random() < 0.5 else ''
            then = self._block(dict(scope), depth - 1)
            if self.random.random() < 0.3:
                then += f' {self._return(scope)}'
            return f'if {self._expression(scope, 1)} {{ {then} }}{otherwise}'
        if kind < 0.98:
            counter = self._bound(scope, 'i')
            body = self._block(dict(scope), depth - 1)
            times = self.random.randint(1, 3)
            return f'let {counter} = 0; while {counter} < {times} {{ {counter} = {counter} + 1; {body} }}'
        return f'if {self._expression(scope, 1)} {{ fail; }}'

    def _spawn(self, scope):
        """A spawn of a function behind, where there is one for coroutines."""
        functions = [each for each in self.functions[self.first:] if each.name[0] == 'c']
        if not functions:
            return None
        name = self._bound(scope, 't', COROUTINE)
        return f'spawn {name} = {self.random.choice(functions).name};'

    def _switch(self, scope):
        """A switch to the coroutine that was bound last, mostly, where there is one."""
        coroutines = [name for name, type in scope.items() if type == COROUTINE]
        if not coroutines:
            return None
        target = coroutines[-1] if self.random.random() < 0.95 else self.random.choice(coroutines)
        value = self._expression(scope, 1)
        number, coroutine = self._bound(scope, 'x'), self._bound(scope, 'u', COROUTINE)
        more = f' print {number};' if self.random.random() < 0.5 else ''
        return f'switch {number}, {coroutine} = {target}({value});{more}'

    def _group(self, scope, depth):
        """A group of a function behind of one number, where there is one."""
        functions = [each for each in self.functions[self.first:] if each.types == [NUMBER]]
        if not functions:
            return None
        named = [each for each in functions if each.name == 'g']
        function = named[0] if named else self.random.choice(functions)
        return f'group {function.name}({self._expression(scope, depth)})'

    def _storing_first(self, scope):
        """The stores with which a clause begins whose resumption some slots keep: into most of the places."""
        stores = [
            f'store {slots.name}[{self._place(scope, slots, place)}] = k; '
            for slots in self.slots if slots.handler == scope['k']
            for place in range(slots.count) if self.random.random() < 0.8]
        return ''.join(stores)

    def _take(self, scope):
        """A take, behind which a resume or a store may stand."""
        slots = self.random.choice(self.slots)
        place = self._place(scope, slots, self.random.randrange(slots.count))
        name = self._bound(scope, 't', slots.handler)
        kind = self.random.random()
        more = f' print {self._resume(scope, 1, name)};' if kind < 0.6 else ''
        if kind > 0.8:
            more = f' store {slots.name}[{self._place(scope, slots, 0)}] = {name};'
        return f'take {name} = {slots.name}[{place}];{more}'

    def _place(self, scope, slots, place):
        """This place of slots mostly, and else any number."""
        kind = self.random.random()
        if kind < 0.93:
            return str(place)
        return self._expression(scope, 1) if kind < 0.98 else str(slots.count)

    def _bound(self, scope, front, type=NUMBER):
        self.lets += 1
        name = f'{front}{self.lets}'
        scope[name] = type
        return name

    # Expressions, by the levels of the grammar.

    def _expression(self, scope, depth):
        return self._run(['||'], 0.06, lambda: self._run(['&&'], 0.06, lambda: self._comparison(scope, depth)))

    def _run(self, operators, likely, part):
        text = part()
        while self.random.random() < likely:
            text += f' {self.random.choice(operators)} {part()}'
        return text

    def _comparison(self, scope, depth):
        text = self._sum(scope, depth)
        if self.random.random() < 0.12:
            text += f' {self.random.choice(["==", "!=", "<", "<=", ">", ">="])} {self._sum(scope, depth)}'
        return text

    def _sum(self, scope, depth):
        return self._run('+-', 0.2, lambda: self._run('*******/%', 0.08, lambda: self._unary(scope, depth)))

    def _unary(self, scope, depth):
        return self.random.choice(['', '', '', '', '', '', '-', '!']) + self._primary(scope, depth)

    def _primary(self, scope, depth):
        kind = self.random.random()
        if depth and kind < 0.55:
            made = self._compound(scope, depth - 1)
            if made:
                return made
        numbers = [name for name, type in scope.items() if type is NUMBER]
        if numbers and kind < 0.85:
            return self.random.choice(numbers)
        return self.random.choice(LITERALS[:8] if self.random.random() < 0.9 else LITERALS)

    def _compound(self, scope, depth):
        if self.has_coroutines and self.random.random() < 0.1:
            return self._group(scope, depth)
        resumptions = self._resumptions(scope)
        if resumptions and self.random.random() < (0.1 if self.slots else 0.35):
            return self._resume(scope, depth, self.random.choice(resumptions))
        if self.random.random() < self.doing:
            effect, count = self.random.choice(self.effects)
            return f'do {effect}({self._list(scope, depth, [NUMBER] * count)})'
        functions = self._callees(scope)
        handlers = [each for each in self.handlers if self._fits(scope, each)]
        if functions and handlers and self.is_handling and (not self.doing or self.random.random() < 0.6):
            function, handler = self.random.choice(functions), self.random.choice(handlers)
            values, parameters = (self._list(scope, depth, each.types) for each in (function, handler))
            return f'handle {function.name}({values}) with {handler.name}({parameters})'
        if functions and self.random.random() < 0.7:
            return self._call(scope, depth, functions)
        return f'({self._expression(scope, depth)})'

    def _resumptions(self, scope):
        """The names of resumptions."""
        return [name for name, type in scope.items() if type not in (NUMBER, COROUTINE)]

    def _callees(self, scope):
        """The functions that may be called here; those for coroutines seldom."""
        return [
            each for each in self.functions[self.first:] if self._fits(scope, each)
            and (COROUTINE not in each.types or self.random.random() < 0.1)]

    def _call(self, scope, depth, functions):
        function = self.random.choice(functions)
        return f'{function.name}({self._list(scope, depth, function.types)})'

    def _fits(self, scope, declared):
        """Whether there is a name for each parameter that is a resumption."""
        return all(type is NUMBER or type in scope.values() for type in declared.types)

    def _resume(self, scope, depth, name):
        handler = next(each for each in self.handlers if each.name == scope[name])
        if not self._fits(scope, handler):
            return '(0)'
        value = self._expression(scope, depth)
        return f'resume {name}({value}) with ({self._list(scope, depth, handler.types)})'

    def _list(self, scope, depth, types):
        return ', '.join(
            self._expression(scope, depth) if type is NUMBER
            else self.random.choice([name for name, bound in scope.items() if bound == type]) for type in types)
