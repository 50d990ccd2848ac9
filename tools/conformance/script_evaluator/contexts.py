"""The context of what is done next: activations, active handles and groups, and what a step does to them."""

from typing import NamedTuple

from script_evaluator.bodies import Body
from script_evaluator.ends import Fault
from script_evaluator.steps import (
    Calls, Gives, Groups, Handles, Performs, Prints, Resumes, Returns, Spawns, Stores, Switches, Takes)


class ActiveHandle(NamedTuple):
    """An active handle: its handler, by name, and the values of the handler's parameters."""

    handler: str
    parameters: list


class ActiveGroup:
    """A group."""


class Coroutine:
    """A coroutine: the function that it will call, or the places that were captured, the innermost last, or neither
    where it was consumed."""

    __slots__ = ('function', 'places')

    def __init__(self, function=None, places=None):
        self.function, self.places = function, places

    @property
    def is_empty(self):
        return self.function is None and self.places is None


class Resumption:
    """A resumption of a handler: the places that were captured, the innermost last, or nothing where it was
    consumed."""

    __slots__ = ('handler', 'places')

    def __init__(self, handler, places):
        self.handler, self.places = handler, places


class Context:
    """Places, the innermost last: activations, which are generators, active handles and groups. `given` is the value
    that the innermost place goes on with; an activation begins with nothing. `slots` has for each slots declaration its
    places, each with a resumption or nothing.

    `acts` counts the activations, `hands` the active handles and groups, and `kept` the resumptions and coroutines that
    aren't consumed; `takes` the resumptions that were taken from slots, and `switches` the switches."""

    def __init__(self, declarations):
        self.declarations = {each.name: each for each in declarations}
        self.places = []
        self.slots = {each.name: [None] * each.count for each in declarations if each.kind == 'slots'}
        self.acts = self.hands = self.kept = self.takes = self.switches = 0
        self.given = None
        self.value = None       # that of main, at the end
        self._start('main', [])

    def step(self):
        """Take one step. What it prints is given, or nothing; a fault is raised."""
        place = self.places[-1]
        if isinstance(place, ActiveHandle):
            self._leave_handle(place)
            return None
        if isinstance(place, ActiveGroup):
            self._leave_group()
            return None
        said = place.send(self.given)
        if isinstance(said, Gives):
            self.given = said.value
        elif isinstance(said, Prints):
            self.given = None
            return said.number
        else:
            RULES[type(said)](self, said)
        return None

    def _enter(self, statements, variables, owner=None):
        self.places.append(Body(variables, owner).whole(statements))
        self.acts += 1
        self.given = None

    def _enter_handle(self, handler, parameters):
        self.places.append(ActiveHandle(handler, parameters))
        self.hands += 1

    def _leave_handle(self, handle):
        """The return clause takes the place of a handle to which a value is given."""
        self.places.pop()
        self.hands -= 1
        handler = self.declarations[handle.handler]
        variables = _bound(handler, handle.parameters) | {handler.result: self.given}
        self._enter(handler.body, variables, handle.handler)

    def _leave_group(self):
        """A group to which a value is given is left with it."""
        self.places.pop()
        self.hands -= 1

    def _start(self, name, values):
        """An activation of a function begins."""
        function = self.declarations[name]
        self._enter(function.body, _bound(function, values))

    def _call(self, said):
        if said.ends:
            self._end_activation()
        self._start(said.function, said.values)

    def _handle(self, said):
        self._enter_handle(said.handler, said.parameters)
        self._start(said.function, said.values)

    def _perform(self, said):
        """The clause takes the place of the handle, and what is inside of this is captured."""
        number, clause = self._clause_for(said.effect)
        handle, captured = self.places[number], self._captured(number + 1)
        self.places.pop()
        self.hands -= 1
        self.kept += 1
        variables = _bound(self.declarations[handle.handler], handle.parameters)
        variables |= dict(zip(clause.arguments, said.values, strict=True))
        variables[clause.resumption] = Resumption(handle.handler, captured)
        self._enter(clause.body, variables, handle.handler)

    def _captured(self, number):
        """The places from this one on, which don't go on now."""
        captured = self.places[number:]
        del self.places[number:]
        self._count(captured, -1)
        return captured

    def _restored(self, captured):
        """These places go on within those that are there."""
        self.places += captured
        self._count(captured, 1)

    def _count(self, places, sign):
        hands = sum(isinstance(place, (ActiveHandle, ActiveGroup)) for place in places)
        self.hands += sign * hands
        self.acts += sign * (len(places) - hands)

    def _clause_for(self, effect):
        """The place of the innermost handle whose handler has a clause for an effect, and the clause."""
        for number in range(len(self.places) - 1, -1, -1):
            place = self.places[number]
            if isinstance(place, ActiveHandle):
                for clause in self.declarations[place.handler].clauses:
                    if clause.effect == effect:
                        return number, clause
        raise Fault(f'unhandled {effect}')

    def _resume(self, said):
        captured = said.resumption.places
        if captured is None:
            raise Fault('reused')
        if said.ends:
            self._end_activation()
        said.resumption.places = None
        self.kept -= 1
        self._enter_handle(said.resumption.handler, said.parameters)
        self._restored(captured)
        self.given = said.value

    def _group(self, said):
        self.places.append(ActiveGroup())
        self.hands += 1
        self._start(said.function, [said.value])

    def _spawn(self, said):
        self.given = Coroutine(said.function)
        self.kept += 1

    def _switch(self, said):
        """What stands inside the innermost group is the new coroutine, as many being kept as before. A target that was
        captured is given the number and the new one; a fresh one calls its function with them."""
        target = said.target
        if target.is_empty:
            raise Fault('reused')
        captured = Coroutine(places=self._captured(self._group_place() + 1))
        function, places = target.function, target.places
        target.function = target.places = None
        self.switches += 1
        if places is None:
            self._start(function, [said.value, captured])
        else:
            self._restored(places)
            self.given = said.value, captured

    def _group_place(self):
        """The place of the innermost group."""
        for number in range(len(self.places) - 1, -1, -1):
            if isinstance(self.places[number], ActiveGroup):
                return number
        raise Fault('unhandled group')

    def _store(self, said):
        """What stood in the place is forgotten, and the resumption isn't consumed."""
        places = self._slots_with(said.slots, said.place)
        places[said.place] = said.resumption
        self.given = None

    def _take(self, said):
        places = self._slots_with(said.slots, said.place)
        taken = places[said.place]
        if taken is None:
            raise Fault('empty')
        places[said.place] = None
        self.takes += 1
        self.given = taken

    def _slots_with(self, slots, place):
        """The places of slots, of which this is one."""
        places = self.slots[slots]
        if not 0 <= place < len(places):
            raise Fault('empty')
        return places

    def _return(self, said):
        self._end_activation()
        self.given = said.value
        if not self.places:
            self.value = said.value

    def _end_activation(self):
        self.places.pop()
        self.acts -= 1


def _bound(declaration, values):
    """The variables of a declaration's parameters."""
    return {parameter.name: value for parameter, value in zip(declaration.parameters, values, strict=True)}


RULES = {
    Calls: Context._call, Handles: Context._handle, Performs: Context._perform, Resumes: Context._resume,
    Groups: Context._group, Spawns: Context._spawn, Switches: Context._switch, Stores: Context._store,
    Takes: Context._take, Returns: Context._return}
