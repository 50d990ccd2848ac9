"""Modules that are filled up to a size with functions, so that each form only says what its functions hold."""

from itertools import cycle, islice

from assembler.encoding import vector
from assembler.modules import code, module

FRAMING = 64            # at most so many bytes are the ids, sizes and counts of the sections that are filled
BODY_SIZE = 0x10000     # bytes of a body, where a form doesn't ask for one giant body

BODY_FRAMING = 16       # at most so many bytes are a body's size, its type in the function section, and its end


def pieces_within(size, pieces):
    """Pieces from the front of an endless iterator, as long as they fit."""
    taken = []
    for piece in pieces:
        size -= len(piece)
        if size < 0:
            return taken
        taken.append(piece)
    return taken


def module_of_functions(size, functions, types, **others):
    """A module of at most so many bytes, with functions from an endless iterator: each the index of its type, and code.

    Each index has one byte, so it is below 128.
    """
    room = size - len(module(types=types, **others)) - FRAMING
    indices, codes = [], []
    for type_index, spelled in functions:
        room -= 1 + len(spelled)
        if room < 0:
            break
        indices.append(type_index)
        codes.append(spelled)
    return module(types=types, functions=indices, codes=codes, **others)


def module_of_rows(size, rows, types, opening=b'', closing=b'', local_runs=(), body_size=BODY_SIZE, **others):
    """A module whose functions, of type 0, have an opening, as many rows as fit, and a closing.

    Rows come from an endless iterator. A `body_size` of None makes one body of all that there is room for.
    """
    room = size - len(module(types=types, **others)) - FRAMING
    around = len(vector([bytes(4) + value_type for _, value_type in local_runs])) + len(opening) + len(closing)
    rows, bodies = iter(rows), []
    while room > BODY_FRAMING + around + 1000:
        body_room = min(room, body_size or room) - BODY_FRAMING - around
        bodies.append(code(opening + b''.join(pieces_within(body_room, rows)) + closing, local_runs))
        room -= len(bodies[-1]) + 1
    return module(types=types, functions=[0] * len(bodies), codes=bodies, **others)


def shuffled(random, pieces, count=4096):
    """An endless iterator of pieces in an order without a pattern that a processor would learn."""
    return cycle([random.choice(pieces) for _ in range(count)])


def drawn(draw, count):
    """An endless iterator over so many pieces, each drawn once: distinct enough, and quickly made."""
    return cycle([draw() for _ in range(count)])


def first(count, endless):
    return list(islice(endless, count))
