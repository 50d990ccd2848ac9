"""Which types match and which are equal: each kind of reference against each, by the rules of the standard."""

from itertools import product

from assembler.instructions import DROP, local_get, on_switch, ref_null, resume
from assembler.modules import code, module
from assembler.types import CONT, FUNC, I32, I64, NOCONT, NOFUNC, conttype, functype, nullable, ref
from rows.sections import ModuleSection, VALID

SECTION = ModuleSection('matching')
INVALID = 'invalid function 0'

# Two equal function types, a continuation type, another function type, and the continuation types of the second and of
# that one.
TYPES = [functype([], []), functype([], []), conttype(0), functype([], [I32]), conttype(1), conttype(3)]
HEAPS = {
    'func': FUNC, 'nofunc': NOFUNC, 'cont': CONT, 'nocont': NOCONT, 'function': 0, 'equal-function': 1,
    'continuation': 2, 'other-function': 3, 'equal-continuation': 4, 'other-continuation': 5}

# Behind each heap type those that it matches beside itself.
ABOVE = {
    'func': [], 'nofunc': ['func', 'function', 'equal-function', 'other-function'], 'cont': [],
    'nocont': ['cont', 'continuation', 'equal-continuation', 'other-continuation'],
    'function': ['func', 'equal-function'], 'equal-function': ['func', 'function'], 'other-function': ['func'],
    'continuation': ['cont', 'equal-continuation'],
    'equal-continuation': ['cont', 'continuation'], 'other-continuation': ['cont']}
EQUAL = [{'function', 'equal-function'}, {'continuation', 'equal-continuation'}]
NULLS = {'nullable': nullable, 'not-null': ref}


def given_for(parameters, results):
    """A module whose function gives parameters of these types as results of those."""
    body = b''.join(local_get(place) for place in range(len(parameters)))
    return module(types=[*TYPES, functype(parameters, results)], functions=[len(TYPES)], codes=[code(body)])


def switched(results, of_tag):
    """A module whose function resumes a continuation that gives these results, under a tag that has those.

    It is valid exactly where they are equal.
    """
    count = len(TYPES)
    types = [*TYPES, functype([], results), conttype(count), functype([], of_tag), functype([], [])]
    body = ref_null(count + 1) + resume(count + 1, on_switch(0)) + DROP * len(results)
    return module(types=types, functions=[count + 3], tags=[count + 2], codes=[code(body)])


def is_matched(lower, upper):
    return lower == upper or upper in ABOVE[lower]


for (below, above), (null_below, null_above) in product(product(HEAPS, repeat=2), product(NULLS, repeat=2)):
    matches = is_matched(below, above) and (null_below, null_above) != ('nullable', 'not-null')
    SECTION.row(
        f'matches/{null_below}-{below}-for-{null_above}-{above}', VALID if matches else INVALID,
        given_for([NULLS[null_below](HEAPS[below])], [NULLS[null_above](HEAPS[above])]))
    equal = null_below == null_above and (below == above or {below, above} in EQUAL)
    SECTION.row(
        f'equals/{null_below}-{below}-and-{null_above}-{above}', VALID if equal else INVALID,
        switched([NULLS[null_below](HEAPS[below])], [NULLS[null_above](HEAPS[above])]))

VALUES = {'i32': I32, 'i64': I64, 'function': ref(0)}
for one, other in product(VALUES, repeat=2):
    answer = VALID if one == other else INVALID
    SECTION.row(f'matches/{one}-for-{other}', answer, given_for([VALUES[one]], [VALUES[other]]))
    SECTION.row(f'equals/{one}-and-{other}', answer, switched([VALUES[one]], [VALUES[other]]))

# Several values, one by one.
ANY = nullable(FUNC)
for name, answer, parameters, results in [
        ('none', VALID, [], []), ('each', VALID, [ref(0), I32], [ANY, I32]),
        ('in-the-other-order', INVALID, [ref(0), I32], [I32, ANY]),
        ('too-few', INVALID, [ref(0)], [ANY, ANY]), ('too-many', INVALID, [ref(0), ref(0)], [ANY]),
        ('the-second-not', INVALID, [ref(0), ref(2)], [ANY, ANY])]:
    SECTION.row(f'matches/results/{name}', answer, given_for(parameters, results))


for name, answer, results, of_tag in [
        ('none', VALID, [], []), ('each', VALID, [ref(0), ref(2)], [ref(1), ref(4)]),
        ('in-the-other-order', INVALID, [ref(0), ref(2)], [ref(4), ref(1)]),
        ('the-second-not', INVALID, [ref(0), ref(0)], [ref(1), ref(3)]),
        ('too-few', INVALID, [ref(0)], [ref(1), ref(1)]),
        ('too-many', INVALID, [ref(0), ref(0)], [ref(1)]), ('one-that-only-matches', INVALID, [ref(0)], [ANY])]:
    SECTION.row(f'equals/results/{name}', answer, switched(results, of_tag))
