"""Supertypes that a type may have, and what matches by them. What each row says was worked out by hand."""

from itertools import permutations

from assembler.instructions import call_indirect, i32_const, local_get, local_set
from assembler.modules import as_func, code, export, imported, module, table
from assembler.segments import active_functions
from assembler.types import (
    CONT, FUNC, FUNCREF, I32, I64, NOCONT, NOFUNC, NULLFUNCREF, conttype, final_type, functype, limits, nullable,
    open_type, rec_group, ref)
from rows.runs import RunSection
from rows.samples import EMPTY_FUNC
from rows.sections import VALID, CallRow, ModuleSection, answered, local_gets, spelled
from surroundings import OUT_OF_RANGE

TYPES = ModuleSection('types')
MATCHING = ModuleSection('matching')
LARGE = ModuleSection('large')
LARGE_RUNS = RunSection('large_runs')
INVALID_FUNCTION = 'invalid function 0'
INVALID = [f'invalid type {number}' for number in range(10)]
TOP = open_type(EMPTY_FUNC)         # which stands in front of many rows' types


def row(name, answer, *types):
    """A module of these types."""
    TYPES.row(name, answer, module(types=types))


# Where the supertype stands, and how many there are.
for kind, declared in [('open', open_type), ('final', final_type)]:
    def below(*supertypes, declared=declared):
        return declared(EMPTY_FUNC, *supertypes)

    row(f'{kind}/no-supertype', VALID, below())
    row(f'{kind}/in-front', VALID, TOP, below(0))
    row(f'{kind}/far-in-front', VALID, TOP, EMPTY_FUNC, conttype(1), EMPTY_FUNC, below(0))
    row(f'{kind}/in-front-in-its-group', VALID, rec_group([TOP, below(0)]))
    row(f'{kind}/in-front-in-a-later-group', VALID, EMPTY_FUNC, rec_group([EMPTY_FUNC, TOP, EMPTY_FUNC, below(2)]))
    row(f'{kind}/in-a-group-in-front', VALID, rec_group([EMPTY_FUNC, TOP]), rec_group([EMPTY_FUNC, below(1)]))
    row(f'{kind}/itself', INVALID[0], below(0))
    row(f'{kind}/itself-behind-another', INVALID[1], TOP, below(1))
    row(f'{kind}/itself-in-a-group', INVALID[1], rec_group([TOP, below(1), TOP]))
    row(f'{kind}/the-next', INVALID[0], below(1), TOP)
    row(f'{kind}/the-next-in-its-group', INVALID[0], rec_group([below(1), TOP]))
    row(f'{kind}/behind-its-group', INVALID[0], rec_group([below(2), TOP]), TOP)
    row(f'{kind}/at-the-end-of-the-types', INVALID[1], TOP, below(2))
    row(f'{kind}/far-out', INVALID[1], TOP, below(OUT_OF_RANGE))
    row(f'{kind}/the-greatest-number', INVALID[0], below(2 ** 32 - 1))
    row(f'{kind}/two', INVALID[2], TOP, TOP, below(0, 1))
    row(f'{kind}/the-same-one-twice', INVALID[1], TOP, below(0, 0))
    row(f'{kind}/two-of-one-chain', INVALID[2], TOP, open_type(EMPTY_FUNC, 0), below(1, 0))
    row(f'{kind}/two-of-which-one-is-not-there', INVALID[1], TOP, below(0, 7))
    row(f'{kind}/two-of-which-one-is-final', INVALID[2], TOP, EMPTY_FUNC, below(0, 1))
    row(f'{kind}/a-thousand', INVALID[1], TOP, below(*[0] * 1000))
    row(f'{kind}/of-a-final-type-alone', INVALID[1], EMPTY_FUNC, below(0))
    row(f'{kind}/of-a-final-type-without-supertypes', INVALID[1], final_type(EMPTY_FUNC), below(0))
    row(f'{kind}/of-a-final-type-with-a-supertype', INVALID[2], TOP, final_type(EMPTY_FUNC, 0), below(1))
    row(f'{kind}/of-an-open-type-with-a-supertype', VALID, TOP, open_type(EMPTY_FUNC, 0), below(1))
    row(f'{kind}/of-a-final-type-in-its-group', INVALID[1], rec_group([EMPTY_FUNC, below(0)]))
    row(f'{kind}/two-below-one', VALID, TOP, below(0), below(0))
    row(f'{kind}/a-continuation-below-a-function', INVALID[1], TOP, declared(conttype(0), 0))
    row(f'{kind}/a-function-below-a-continuation', INVALID[2], TOP, open_type(conttype(0)), below(1))
    row(f'{kind}/a-continuation-below-a-continuation', VALID, TOP, open_type(conttype(0)), declared(conttype(0), 1))
    row(f'{kind}/a-continuation-below-a-final-one', INVALID[2], TOP, conttype(0), declared(conttype(0), 1))
    row(f'{kind}/a-continuation-of-a-continuation', INVALID[2], TOP, open_type(conttype(0)), declared(conttype(1), 1))
    row(f'{kind}/a-continuation-of-no-type', INVALID[2], TOP, open_type(conttype(0)), declared(conttype(9), 1))
    row(f'{kind}/a-reference-of-no-type', INVALID[1], TOP, declared(functype([], [nullable(7)]), 0))

# What a type is, below what its supertype is: behind a chain of three functions, of which the third is final.
CHAIN = [TOP, open_type(EMPTY_FUNC, 0), final_type(EMPTY_FUNC, 1)]
A, B, C = (ref(number) for number in range(3))      # each matches those in front of it
for name, fits, upper, lower in [
        ('equal', True, ([B], [B]), ([B], [B])), ('nothing', True, ([], []), ([], [])),
        ('a-result-below', True, ([], [B]), ([], [C])), ('a-result-two-below', True, ([], [A]), ([], [C])),
        ('a-result-above', False, ([], [B]), ([], [A])), ('a-parameter-above', True, ([B], []), ([A], [])),
        ('a-parameter-two-above', True, ([C], []), ([A], [])), ('a-parameter-below', False, ([B], []), ([C], [])),
        ('both', True, ([B], [B]), ([A], [C])), ('both-the-other-way', False, ([B], [B]), ([C], [A])),
        ('both-below', False, ([B], [B]), ([C], [C])), ('both-above', False, ([B], [B]), ([A], [A])),
        ('a-result-that-is-not-null', True, ([], [nullable(1)]), ([], [B])),
        ('a-result-that-may-be-null', False, ([], [B]), ([], [nullable(1)])),
        ('a-result-below-that-may-be-null', False, ([], [B]), ([], [nullable(2)])),
        ('a-parameter-that-is-not-null', False, ([nullable(1)], []), ([B], [])),
        ('a-parameter-that-may-be-null', True, ([B], []), ([nullable(1)], [])),
        ('a-result-below-func', True, ([], [FUNCREF]), ([], [C])),
        ('a-result-above-it-is-func', False, ([], [C]), ([], [ref(FUNC)])),
        ('a-result-of-nofunc', True, ([], [nullable(2)]), ([], [NULLFUNCREF])),
        ('a-result-below-nofunc', False, ([], [NULLFUNCREF]), ([], [nullable(2)])),
        ('a-parameter-of-func', True, ([C], []), ([FUNCREF], [])),
        ('a-parameter-of-nofunc', False, ([nullable(2)], []), ([NULLFUNCREF], [])),
        ('a-result-of-cont', False, ([], [nullable(0)]), ([], [nullable(CONT)])),
        ('the-same-number', True, ([I32], [I64]), ([I32], [I64])),
        ('another-number-as-a-result', False, ([], [I32]), ([], [I64])),
        ('another-number-as-a-parameter', False, ([I32], []), ([I64], [])),
        ('a-number-for-a-reference', False, ([], [A]), ([], [I32])),
        ('a-parameter-more', False, ([], []), ([I32], [])), ('a-parameter-less', False, ([I32], []), ([], [])),
        ('a-result-more', False, ([], []), ([], [I32])), ('a-result-less', False, ([], [I32]), ([], [])),
        ('a-result-as-a-parameter', False, ([], [A]), ([A], [])),
        ('the-second-result-above', False, ([], [B, B]), ([], [C, A])),
        ('the-second-parameter-below', False, ([B, B], []), ([A, C], [])),
        ('three-of-each', True, ([A, B, C], [A, B, C]), ([A, A, A], [C, C, C])),
        ('nine-results', True, ([], [A] * 9), ([], [C] * 9)),
        ('the-ninth-result-above', False, ([], [B] * 9), ([], [*[C] * 8, A])),
        ('the-ninth-parameter-below', False, ([B] * 9, []), ([*[A] * 8, C], []))]:
    for kind, declared in [('open', open_type), ('final', final_type)]:
        row(f'functions/{name}/{kind}', VALID if fits else INVALID[4], *CHAIN, open_type(functype(*upper)),
            declared(functype(*lower), 3))
    row(f'functions/{name}/in-one-group', VALID if fits else INVALID[4], *CHAIN, rec_group([
        open_type(functype(*upper)), final_type(functype(*lower), 3)]))
row('functions/each-a-result-below-the-one-before', VALID, *CHAIN, open_type(functype([], [A])),
    open_type(functype([], [B]), 3), final_type(functype([], [C]), 4))
row('functions/the-second-link-above', INVALID[5], *CHAIN, open_type(functype([], [A])),
    open_type(functype([], [C]), 3), final_type(functype([], [B]), 4))

# Continuations, by their functions. Behind the chain stands a function equal to the second, and one beside it.
CONTINUED = [*CHAIN, open_type(EMPTY_FUNC, 0), final_type(EMPTY_FUNC, 0)]
for name, fits, upper, lower in [
        ('of-the-same-function', True, 1, 1), ('of-an-equal-function', True, 1, 3), ('the-other-way', True, 3, 1),
        ('of-a-function-below', True, 1, 2), ('of-a-function-two-below', True, 0, 2),
        ('of-a-function-below-an-equal-one', True, 3, 2), ('of-a-function-above', False, 1, 0),
        ('of-a-function-two-above', False, 2, 0), ('of-a-function-beside-it', False, 1, 4)]:
    row(f'continuations/{name}', VALID if fits else INVALID[6], *CONTINUED, open_type(conttype(upper)),
        final_type(conttype(lower), 5))
GIVES_FUNC, GIVES_NULL = functype([], [FUNCREF]), functype([], [NULLFUNCREF])
row('continuations/of-a-function-that-is-below-by-its-results-alone', INVALID[3], open_type(GIVES_FUNC), GIVES_NULL,
    open_type(conttype(0)), final_type(conttype(1), 2))
row('continuations/of-a-function-that-is-declared-below', VALID, open_type(GIVES_FUNC), final_type(GIVES_NULL, 0),
    open_type(conttype(0)), final_type(conttype(1), 2))

# Groups whose types refer to one another: supertypes that are declared count while a type of the group is judged.
GIVES = [functype([], [ref(number)]) for number in range(4)]
TAKES = [functype([ref(number)], []) for number in range(4)]
row('groups/each-gives-itself', VALID, rec_group([open_type(GIVES[0]), final_type(GIVES[1], 0)]))
row('groups/each-gives-the-other', INVALID[1], rec_group([open_type(GIVES[1]), final_type(GIVES[0], 0)]))
row('groups/both-give-the-lower', VALID, rec_group([open_type(GIVES[1]), final_type(GIVES[1], 0)]))
row('groups/each-takes-itself', INVALID[1], rec_group([open_type(TAKES[0]), final_type(TAKES[1], 0)]))
row('groups/each-takes-the-other', VALID, rec_group([open_type(TAKES[1]), final_type(TAKES[0], 0)]))
row('groups/both-take-the-upper', VALID, rec_group([open_type(TAKES[0]), final_type(TAKES[0], 0)]))
row('groups/it-gives-a-later-type-below', VALID, rec_group([
    open_type(GIVES[0]), final_type(GIVES[2], 0), final_type(GIVES[2], 0)]))
row('groups/it-gives-a-later-type-two-below', VALID, rec_group([
    open_type(GIVES[0]), final_type(GIVES[3], 0), open_type(GIVES[2], 0), final_type(GIVES[3], 2)]))
row('groups/it-gives-a-later-type-beside-it', INVALID[1], rec_group([
    open_type(GIVES[0]), final_type(GIVES[2], 0), open_type(GIVES[2])]))
row('groups/it-gives-a-later-type-that-is-declared-below-and-is-not', INVALID[2], rec_group([
    open_type(GIVES[0]), final_type(GIVES[2], 0), final_type(functype([], [ref(FUNC)]), 0)]))
row('groups/it-gives-a-later-type-of-two-supertypes', INVALID[1], rec_group([
    open_type(GIVES[0]), final_type(GIVES[2], 0), final_type(GIVES[2], 0, 0)]))
row('groups/it-gives-a-later-type-whose-supertype-is-behind', INVALID[1], rec_group([
    open_type(GIVES[0]), final_type(GIVES[2], 0), open_type(GIVES[2], 3), open_type(GIVES[3], 0)]))
row('groups/it-gives-a-later-type-below-a-final-one', INVALID[2], rec_group([
    open_type(GIVES[0]), final_type(GIVES[2], 0), final_type(GIVES[2], 1)]))
row('groups/it-gives-a-type-below-one-of-an-equal-group', VALID,
    rec_group([open_type(GIVES[0]), final_type(GIVES[1], 0)]), rec_group([
        open_type(functype([], [ref(2)])), final_type(functype([], [ref(3)]), 2)]),
    open_type(functype([], [ref(0)])), final_type(functype([], [ref(3)]), 4))
row('groups/a-function-and-its-continuation-below-such-a-pair', VALID, rec_group([
    open_type(functype([nullable(1)], [])), open_type(conttype(0)), final_type(functype([nullable(1)], []), 0),
    final_type(conttype(2), 1)]))
row('groups/a-function-that-takes-its-continuation-below-such-a-one', INVALID[2], rec_group([
    open_type(functype([nullable(1)], [])), open_type(conttype(0)), final_type(functype([nullable(3)], []), 0),
    final_type(conttype(2), 1)]))
row('groups/a-function-that-gives-its-continuation-below-such-a-one', VALID, rec_group([
    open_type(functype([], [ref(1)])), open_type(conttype(0)), final_type(functype([], [ref(3)]), 0),
    final_type(conttype(2), 1)]))
row('groups/a-continuation-in-front-of-its-function', VALID, TOP, open_type(conttype(0)), rec_group([
    final_type(conttype(3), 1), final_type(EMPTY_FUNC, 0)]))
row('groups/a-continuation-in-front-of-its-function-beside', INVALID[2], TOP, open_type(conttype(0)), rec_group([
    final_type(conttype(3), 1), EMPTY_FUNC]))

# The first type that is not valid is named, and before any other item.
row('first/of-two', INVALID[1], TOP, final_type(EMPTY_FUNC, 0, 0), final_type(EMPTY_FUNC, 5))
row('first/of-a-group', INVALID[2], rec_group([TOP, final_type(EMPTY_FUNC, 0), final_type(EMPTY_FUNC, 1), conttype(2),
                                               conttype(3)]))
row('first/a-final-supertype-in-front-of-an-index-out-of-range', INVALID[1], EMPTY_FUNC, final_type(EMPTY_FUNC, 0),
    functype([ref(7)], []))
row('first/an-index-out-of-range-in-front-of-a-final-supertype', INVALID[0], functype([ref(7)], []), EMPTY_FUNC,
    final_type(EMPTY_FUNC, 1))
row('first/below-a-type-that-is-not-valid', INVALID[0], open_type(functype([], [ref(7)])),
    final_type(functype([], [ref(7)]), 0))
row('first/a-supertype-in-a-group-whose-last-type-is-not-valid', INVALID[2], rec_group([
    TOP, open_type(EMPTY_FUNC, 0), conttype(9)]), final_type(EMPTY_FUNC, 1, 1))
BAD_IMPORT = imported(as_func(9))
TYPES.row('first/a-type-in-front-of-an-import', INVALID[1], module(
    types=[EMPTY_FUNC, final_type(EMPTY_FUNC, 0)], imports=[BAD_IMPORT]))
TYPES.row('first/an-import-behind-valid-types', 'invalid import 0', module(
    types=[TOP, final_type(EMPTY_FUNC, 0)], imports=[BAD_IMPORT]))
row('first/a-limit-in-front-of-a-type', 'limit params', EMPTY_FUNC, final_type(EMPTY_FUNC, 0),
    final_type(functype([I32] * 1001, []), 0))
row('first/a-thousand-parameters-and-results-below-as-many', VALID, open_type(functype([I32] * 1000, [A] * 1000)),
    final_type(functype([I32] * 1000, [ref(1)] * 1000), 0))


def given_for(types, pairs):
    """A module of these groups, with a function for each pair, which gives what it takes."""
    count = sum(len(each) if isinstance(each, list) else 1 for each in types)
    groups = [rec_group(each) if isinstance(each, list) else each for each in types]
    return module(
        types=[*groups, *(functype([nullable(lower)], [nullable(upper)]) for lower, upper in pairs)],
        functions=range(count, count + len(pairs)), codes=[code(local_get(0))] * len(pairs))


def order(name, types, above):
    """Types in groups, and behind the index of each the others that it matches: all in one module, and each pair that
    does not match in one of its own."""
    pairs = [(lower, upper) for lower, uppers in above.items() for upper in uppers]
    MATCHING.row(f'{name}/matching', VALID, given_for(types, pairs + [(each, each) for each in above]))
    for lower, upper in permutations(above, 2):
        if upper not in above[lower]:
            MATCHING.row(f'{name}/{lower}-for-{upper}', INVALID_FUNCTION, given_for(types, [(lower, upper)]))


BELOW = [final_type(EMPTY_FUNC, number) for number in range(10)]
OPEN = [open_type(EMPTY_FUNC, number) for number in range(10)]
order('chain-of-two', [TOP, BELOW[0]], {0: [], 1: [0]})
order('chain-of-three', [TOP, OPEN[0], BELOW[1]], {0: [], 1: [0], 2: [1, 0]})
order('chain-in-one-group', [[TOP, OPEN[0], BELOW[1]]], {0: [], 1: [0], 2: [1, 0]})
order('chain-through-groups', [[EMPTY_FUNC, TOP], [OPEN[1], EMPTY_FUNC], BELOW[2]], {
    0: [], 1: [], 2: [1], 3: [], 4: [2, 1]})
order('brothers', [TOP, open_type(EMPTY_FUNC, 0), final_type(EMPTY_FUNC, 0)], {0: [], 1: [0], 2: [0]})
order('brothers-in-one-group', [TOP, [OPEN[0], OPEN[0]]], {0: [], 1: [0], 2: [0]})
order('equal-brothers', [TOP, BELOW[0], BELOW[0]], {0: [], 1: [0, 2], 2: [0, 1]})
order('nephews', [TOP, OPEN[0], final_type(EMPTY_FUNC, 0), BELOW[1]], {0: [], 1: [0], 2: [0], 3: [1, 0]})
order('tree', [TOP, OPEN[0], final_type(EMPTY_FUNC, 0), OPEN[1], BELOW[1], BELOW[3]],
      {0: [], 1: [0], 2: [0], 3: [1, 0], 4: [1, 0], 5: [3, 1, 0]})
order('no-relation-without-a-declaration', [TOP, EMPTY_FUNC, open_type(functype([], [FUNCREF])),
                                            open_type(functype([], [NULLFUNCREF]))], {0: [], 1: [], 2: [], 3: []})

# Equivalence.
order('equal-but-for-finality', [TOP, EMPTY_FUNC], {0: [], 1: []})
order('equal-but-for-finality-below-one', [TOP, OPEN[0], BELOW[0]], {0: [], 1: [0], 2: [0]})
order('equal-but-for-finality-in-groups', [[TOP, EMPTY_FUNC], [TOP, TOP]], {0: [], 1: [], 2: [], 3: []})
order('final-in-two-spellings', [EMPTY_FUNC, final_type(EMPTY_FUNC)], {0: [1], 1: [0]})
order('equal-but-for-having-a-supertype', [TOP, OPEN[0]], {0: [], 1: [0]})
order('equal-but-for-the-supertype', [TOP, OPEN[0], BELOW[0], BELOW[1]], {0: [], 1: [0], 2: [0], 3: [1, 0]})
order('of-equal-supertypes', [TOP, TOP, BELOW[0], BELOW[1]], {0: [1], 1: [0], 2: [3, 0, 1], 3: [2, 0, 1]})
order('of-equal-supertypes-of-equal-supertypes', [TOP, TOP, OPEN[0], OPEN[1], BELOW[2], BELOW[3]], {
    0: [1], 1: [0], 2: [3, 0, 1], 3: [2, 0, 1], 4: [5, 2, 3, 0, 1], 5: [4, 2, 3, 0, 1]})
order('equal-groups', [[TOP, BELOW[0]], [TOP, BELOW[2]]], {0: [2], 1: [3, 0, 2], 2: [0], 3: [1, 0, 2]})
order('groups-one-with-its-supertype-in-front-of-it', [[TOP, BELOW[0]], [TOP, BELOW[0]]], {
    0: [], 1: [0], 2: [], 3: [0]})
order('groups-of-another-place-of-the-supertype', [[TOP, TOP, BELOW[0]], [TOP, TOP, BELOW[4]]], {
    0: [], 1: [], 2: [0], 3: [], 4: [], 5: [4]})
order('groups-of-other-length', [[TOP, BELOW[0]], [TOP, BELOW[2], EMPTY_FUNC]], {0: [], 1: [0], 2: [], 3: [2], 4: []})
order('groups-in-another-order', [[EMPTY_FUNC, TOP, BELOW[1]], [TOP, EMPTY_FUNC, BELOW[3]]], {
    0: [], 1: [], 2: [1], 3: [], 4: [], 5: [3]})
order('groups-that-differ-in-the-finality-of-another-type', [[TOP, TOP], [TOP, EMPTY_FUNC]], {
    0: [], 1: [], 2: [], 3: []})
order('a-group-of-one-and-a-type-alone', [TOP, [TOP], BELOW[0], [BELOW[1]]], {
    0: [1], 1: [0], 2: [3, 0, 1], 3: [2, 0, 1]})
order('a-type-equal-to-one-with-a-supertype', [TOP, OPEN[0], OPEN[0], BELOW[2]], {
    0: [], 1: [2, 0], 2: [1, 0], 3: [2, 1, 0]})
order('continuations', [TOP, BELOW[0], open_type(conttype(0)), final_type(conttype(1), 2), open_type(conttype(1))], {
    0: [], 1: [0], 2: [], 3: [2], 4: []})
order('continuations-of-equal-functions', [
    TOP, OPEN[0], OPEN[0], open_type(conttype(0)), final_type(conttype(1), 3), final_type(conttype(2), 3)], {
        0: [], 1: [2, 0], 2: [1, 0], 3: [], 4: [5, 3], 5: [4, 3]})
order('types-that-refer-to-themselves', [
    [open_type(functype([], [ref(0)])), final_type(functype([], [ref(1)]), 0)],
    [open_type(functype([], [ref(2)])), final_type(functype([], [ref(3)]), 2)],
    [open_type(functype([], [ref(4)])), final_type(functype([], [ref(4)]), 4)]], {
        0: [2], 1: [3, 0, 2], 2: [0], 3: [1, 0, 2], 4: [], 5: [4]})

# Against the other heap types, and with null.
HEAPS = [TOP, OPEN[0], open_type(conttype(0)), final_type(conttype(1), 2)]
for name, fits, lower, upper in [
        ('below-func', True, nullable(1), FUNCREF), ('below-func-not-null', True, ref(1), ref(FUNC)),
        ('func-below', False, ref(FUNC), ref(1)), ('nofunc-below', True, nullable(NOFUNC), nullable(1)),
        ('below-nofunc', False, ref(1), ref(NOFUNC)), ('below-cont', False, ref(1), ref(CONT)),
        ('nocont-below-a-function', False, ref(NOCONT), ref(1)), ('a-continuation-below-cont', True, ref(3), ref(CONT)),
        ('cont-below-a-continuation', False, ref(CONT), ref(3)), ('nocont-below', True, ref(NOCONT), ref(3)),
        ('a-continuation-below-func', False, ref(3), ref(FUNC)),
        ('a-continuation-below-a-function', False, ref(3), ref(1)),
        ('a-function-below-a-continuation', False, ref(1), ref(3)),
        ('not-null-below-null', True, ref(1), nullable(0)), ('null-below-null', True, nullable(1), nullable(0)),
        ('null-below-not-null', False, nullable(1), ref(0)), ('not-null-below-not-null', True, ref(1), ref(0)),
        ('null-below-not-null-of-continuations', False, nullable(3), ref(2)),
        ('not-null-below-null-of-continuations', True, ref(3), nullable(2))]:
    MATCHING.row(f'heap-types/{name}', VALID if fits else INVALID_FUNCTION, module(
        types=[*HEAPS, functype([lower], [upper])], functions=[4], codes=[code(local_get(0))]))

# Chains of a hundred types, and of 9,998, each below the one before.
HUNDRED = [TOP, *(open_type(EMPTY_FUNC, number) for number in range(99))]
for name, fits, lower, upper in [
        ('the-last-for-the-first', True, 99, 0), ('the-first-for-the-last', False, 0, 99),
        ('the-last-for-the-one-before', True, 99, 98), ('the-one-before-for-the-last', False, 98, 99),
        ('one-within-for-another', True, 70, 30), ('the-other-way', False, 30, 70)]:
    for group, types in [('', HUNDRED), ('-in-one-group', [HUNDRED])]:
        MATCHING.row(f'chain-of-a-hundred{group}/{name}', VALID if fits else INVALID_FUNCTION,
                     given_for(types, [(lower, upper)]))


HALF = 4999
LAST = 2 * HALF - 1
FIRST_HALF = [TOP, *(open_type(EMPTY_FUNC, number) for number in range(HALF - 1))]
NEXT_HALF = [open_type(EMPTY_FUNC, number) for number in range(HALF, LAST)]
OTHER_HALF = [TOP, *NEXT_HALF]      # where the first half is a chain of its own, equal to that
CONTINUATIONS = [
    open_type(conttype(0)), *(open_type(conttype(number - HALF + 1), number) for number in range(HALF, LAST))]


def linked(link):
    """Both halves, and between them a type, of the number of the half."""
    return [*FIRST_HALF, link, *NEXT_HALF]


WHOLE_CHAIN = linked(open_type(EMPTY_FUNC, HALF - 1))
PIECES = [(name, b''.join(types).hex().upper()) for name, types in [
    ('first_half', FIRST_HALF), ('next_half', NEXT_HALF), ('continuations', CONTINUATIONS)]]


MATCH = local_get(0) + local_set(1)
MATCHES = 20000


def words_of(given):
    """The words that spell a module, by pieces, and many matches as one repeated word."""
    words = spelled(given)
    for name, digits in PIECES:
        words = words.replace(digits, f' @{name} ')
    match = MATCH.hex().upper()
    return ' '.join(words.replace(match * MATCHES, f' {match}*{MATCHES} ').split())


def large(name, answer, given):
    """A module with such chains."""
    LARGE.rows.append(CallRow(name, 'check x', words_of(given), answered(answer)))


def large_pairs(name, types, pairs):
    """Modules of these groups, for each pair by its name whether one type matches another."""
    for pair_name, fits, lower, upper in pairs:
        large(f'{name}/{pair_name}', VALID if fits else INVALID_FUNCTION, given_for(types, [(lower, upper)]))


ALONG = [
    ('the-last-for-the-first', True, LAST, 0), ('the-first-for-the-last', False, 0, LAST),
    ('the-last-for-one-within', True, LAST, HALF), ('one-within-for-the-last', False, HALF, LAST),
    ('the-last-for-the-one-before', True, LAST, LAST - 1), ('the-one-before-for-the-last', False, LAST - 1, LAST)]
large_pairs('chain', WHOLE_CHAIN, ALONG)
large_pairs('chain-in-one-group', [WHOLE_CHAIN], ALONG)
for chains, types in [
        ('two-equal-chains', [*FIRST_HALF, *OTHER_HALF]),
        ('two-equal-chains-in-two-groups', [FIRST_HALF, OTHER_HALF])]:
    large_pairs(chains, types, [
        ('the-last-for-the-last-of-the-other', True, LAST, HALF - 1), ('that-for-it', True, HALF - 1, LAST),
        ('the-last-for-the-first-of-the-other', True, LAST, 0), ('that-first-for-it', False, 0, LAST),
        ('the-one-before-the-last-for-the-last-of-the-other', False, LAST - 1, HALF - 1),
        ('the-first-for-the-first-of-the-other', True, HALF, 0),
        ('the-first-for-the-second-of-the-other', False, HALF, 1)])
large_pairs('continuations-over-a-chain', [*FIRST_HALF, *CONTINUATIONS], [
    ('the-last-for-the-first', True, LAST, HALF), ('the-first-for-the-last', False, HALF, LAST),
    ('the-last-for-its-function', False, LAST, HALF - 1)])
FINAL_WITHIN = linked(final_type(EMPTY_FUNC, HALF - 1))
large('chain/one-is-final', f'invalid type {HALF + 1}', module(types=FINAL_WITHIN))
large('chain/one-is-another-function', f'invalid type {HALF}', module(types=linked(
    open_type(functype([I32], []), HALF - 1))))
large('chain/two-hundred-parameters', VALID, module(
    types=[*WHOLE_CHAIN, functype([ref(LAST)] * 200, [ref(0)] * 200)], functions=[LAST + 1],
    codes=[code(local_gets(200))]))
large('chain/twenty-thousand-times-the-last-for-the-first', VALID, module(
    types=[*WHOLE_CHAIN, functype([ref(LAST), nullable(0)], [])], functions=[LAST + 1],
    codes=[code(MATCH * MATCHES)]))
LONGER_CHAIN = [*WHOLE_CHAIN, open_type(EMPTY_FUNC, LAST)]
large('chain/10000-types', VALID, module(types=[*LONGER_CHAIN, final_type(EMPTY_FUNC, LAST + 1)]))
large('chain/10001-types', 'limit types', module(types=[
    *LONGER_CHAIN, open_type(EMPTY_FUNC, LAST + 1), final_type(EMPTY_FUNC, LAST + 2)]))
large('chain/10001-types-of-which-one-is-not-valid', 'limit types', module(types=[*FINAL_WITHIN, *[EMPTY_FUNC] * 3]))
for name, wanted, of_function, named in [
        ('the-last-as-the-first', ['out | = 7'], LAST, 0), ('the-last-as-one-within', ['out | = 7'], LAST, HALF),
        ('the-first-as-the-last', ['err | trap call type mismatch', 'status 1'], 0, LAST)]:
    LARGE_RUNS.known(f'chain/call_indirect/{name}', wanted, module(
        types=[*WHOLE_CHAIN, functype([], [I32])], functions=[LAST + 1, of_function],
        tables=[table(FUNCREF, limits(1))], exports=[export('main', 'func', 0)], elements=[active_functions([1])],
        codes=[code(i32_const(0) + call_indirect(named, 0) + i32_const(7)), code(b'')]), words_of)
