"""Limits on modules: each kept to the last, passed by one, and which of several is named."""

from assembler.instructions import DROP
from assembler.modules import as_func, code, imported, module
from assembler.types import I32, I64, conttype, functype, ref
from rows.sections import VALID, CallRow, ModuleSection, answered
from rows.words import Pieces, shortest

SECTION = ModuleSection('limits')
row = SECTION.row
EMPTY = functype([], [])


def many_types(name, answer, words, more=''):
    """Types that these words spell, and these sections behind them."""
    size = shortest(Pieces().length(words.split()))
    given = f'0061736D01000000 01{size} {words} {more}'.rstrip()
    SECTION.rows.append(CallRow(name, 'check x', given, answered(answer)))


# 10,000 and 10,001 types: each alone, in one group, and in two.
many_types('types/10000-alone', VALID, '904E 600000*10000')
many_types('types/10001-alone', 'limit types', '914E 600000*10001')
many_types('types/10000-in-a-group', VALID, '01 4E904E 600000*10000')
many_types('types/10001-in-a-group', 'limit types', '01 4E914E 600000*10001')
many_types('types/10000-in-two-groups', VALID, '02 4E8F4E 600000*9999 600000')
many_types('types/10001-in-two-groups', 'limit types', '02 4E904E 600000*10000 600000')
many_types('types/10001-of-which-none-is-valid', 'limit types', '914E 5D00*10001')

# 1,000 parameters and results of a type.
for name, answer, parameters, results in [
        ('1000-and-1000', VALID, 1000, 1000), ('1001-parameters', 'limit params', 1001, 0),
        ('1001-results', 'limit params', 0, 1001)]:
    row(f'params/{name}', answer, module(types=[EMPTY, functype([I32] * parameters, [I64] * results)]))
row('params/of-a-type-that-is-not-valid', 'limit params', module(types=[functype([ref(7)] * 1001, [])]))


def function(name, answer, parameters, runs):
    """A function of so many parameters and these locals."""
    declared = [(count, I64) for count in runs]
    row(f'locals/{name}', answer,
        module(types=[functype([I32] * parameters, [])], functions=[0], codes=[code(b'', declared)]))


# 50,000 locals, parameters among them.
function('50000', VALID, 0, [50000])
function('50001-in-two-runs', 'limit locals', 0, [1, 50000])
function('50000-with-parameters', VALID, 10, [49989, 0, 1])
function('50001-with-parameters', 'limit locals', 10, [49991])
function('2^32-less-1-with-parameters', 'limit locals', 10, [2 ** 32 - 1])
row('locals/of-the-second-function', 'limit locals', module(
    types=[EMPTY], functions=[0, 0], codes=[code(DROP), code(b'', [(50001, I32)])]))
row('locals/of-a-function-behind-imports', 'limit locals', module(
    types=[EMPTY, functype([I32], [])], imports=[imported(as_func(0))], functions=[1],
    codes=[code(b'', [(50000, I32)])]))
row('locals/of-a-function-of-no-type', 'limit locals', module(functions=[7], codes=[code(b'', [(50001, I32)])]))
row('locals/parameters-of-no-function-type', 'invalid function 0', module(
    types=[EMPTY, conttype(0)], functions=[1], codes=[code(b'', [(50000, I32)])]))

# The first limit is named, and a limit before any item.
MORE_LOCALS = '03020100 0A08010601D186037F0B'
many_types('types-before-params-and-locals', 'limit types', '914E 60E907 7F*1001 00 600000*10000', MORE_LOCALS)
many_types('params-before-locals', 'limit params', '904E 60E907 7F*1001 00 600000*9999', MORE_LOCALS)
row('params-before-a-type-that-is-not-valid', 'limit params', module(types=[conttype(9), functype([I64] * 1001, [])]))
