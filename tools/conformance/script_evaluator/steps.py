"""What a step of an activation does: each activation says one of these for each of its steps."""

from typing import NamedTuple


class Gives(NamedTuple):
    """The step gives this value to the activation, or nothing where it was a statement's."""

    value: object


class Prints(NamedTuple):
    """A number is printed."""

    number: int


class Calls(NamedTuple):
    """A function is called with these values; the activation may end first."""

    function: str
    values: list
    ends: bool


class Handles(NamedTuple):
    """A function is called with these values in a handle of a handler with these ones."""

    function: str
    values: list
    handler: str
    parameters: list


class Performs(NamedTuple):
    """An effect is performed with these values."""

    effect: str
    values: list


class Resumes(NamedTuple):
    """A resumption is resumed with this value, and its handler has these from then on; the activation may end first."""

    resumption: object
    value: int
    parameters: list
    ends: bool


class Stores(NamedTuple):
    """A resumption is put into a place of slots."""

    slots: str
    place: int
    resumption: object


class Takes(NamedTuple):
    """A place of slots is emptied, and gives what stood there."""

    slots: str
    place: int


class Groups(NamedTuple):
    """A function is called with this value in a group."""

    function: str
    value: int


class Spawns(NamedTuple):
    """A coroutine is made, which will call this function."""

    function: str


class Switches(NamedTuple):
    """The target goes on with this value in the innermost group, and what goes on there now is made a coroutine."""

    target: object
    value: int


class Returns(NamedTuple):
    """The activation ends with this value."""

    value: int
