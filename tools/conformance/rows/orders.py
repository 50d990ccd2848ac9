"""Which item is named where several are invalid, and which limit is named before any item."""

from assembler.instructions import DROP, UNREACHABLE, i64_const
from assembler.modules import as_func, code, export, global_, imported, module, table
from assembler.segments import active_data, passive_data, passive_functions
from assembler.types import FUNCREF, I32, conttype, functype, limits
from rows.samples import EMPTY_FUNC
from rows.sections import ModuleSection
from surroundings import OUT_OF_RANGE

SECTION = ModuleSection('orders')
row = SECTION.row

# The kinds of items in the order in which they are judged: what is said of an invalid item, and sections with one.
INVALID_ITEMS = {
    'types': ('invalid type 0', {'types': [conttype(OUT_OF_RANGE)]}),
    'imports': ('invalid import 0', {'imports': [imported(as_func(OUT_OF_RANGE))]}),
    'tables': ('invalid table 0', {'tables': [table(FUNCREF, limits(1, 0))]}),
    'memories': ('invalid memory', {'memories': [limits(1, 0)]}),
    'tags': ('invalid tag 0', {'tags': [OUT_OF_RANGE]}),
    'globals': ('invalid global 0', {'globals': [global_(I32, b'')]}),
    'elements': ('invalid element 0', {'elements': [passive_functions([OUT_OF_RANGE])]}),
    'datas': ('invalid data 0', {'datas': [active_data('a', offset=b'')]}),
    'start': ('invalid start', {'start': OUT_OF_RANGE}),
    'exports': ('invalid export 0', {'exports': [export('a', 'func', OUT_OF_RANGE)]}),
    'functions': ('invalid function 0', {'functions': [OUT_OF_RANGE], 'codes': [code(UNREACHABLE)]}),
}


def module_of(kinds):
    """A module with an invalid item of each of these kinds."""
    sections = {}
    for kind in kinds:
        sections |= INVALID_ITEMS[kind][1]
    return module(**sections)


KINDS = list(INVALID_ITEMS)
for place, (kind, (answer, _)) in enumerate(INVALID_ITEMS.items()):
    row(f'orders/{kind}-and-all-later-ones', answer, module_of(KINDS[place:]))
    for next_kind in KINDS[place + 1:]:
        row(f'orders/{kind}-before-{next_kind}', answer, module_of([kind, next_kind]))

row('orders/global-before-export-and-function', 'invalid global 0',
    module(types=[EMPTY_FUNC], functions=[0], globals=[global_(I32, i64_const(0))],
           exports=[export('a', 'func', 0), export('a', 'func', 0)], codes=[code(DROP)]))
row('orders/last-type-before-first-import', 'invalid type 2',
    module(types=[EMPTY_FUNC, EMPTY_FUNC, conttype(5)], imports=[imported(as_func(5))]))
row('orders/last-data-before-the-start', 'invalid data 2',
    module(types=[EMPTY_FUNC], memories=[limits(0)], start=0,
           datas=[passive_data('a'), passive_data('b'), active_data('c', b'')]))
row('orders/last-import-before-the-first-table', 'invalid import 1',
    module(types=[EMPTY_FUNC], imports=[imported(as_func(0)), imported(as_func(1))],
           tables=[table(FUNCREF, limits(1, 0))]))
row('orders/start-that-is-not-there', 'invalid start',
    module(types=[EMPTY_FUNC], exports=[export('a', 'func', 0)], start=0))
row('orders/limits-before-items', 'limit params', module(types=[conttype(9), functype([I32] * 1001, [])]))
row('orders/limit-of-locals-before-items', 'limit locals',
    module(types=[conttype(9), EMPTY_FUNC], functions=[1], codes=[code(b'', [(50001, I32)])]))
