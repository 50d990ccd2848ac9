"""The instructions of texts: their names, and what their immediates are, in the order of the binary format.

A memory is an index as others are. Labels are all words but the last; types and clauses are all words that are left.
"""

from reader.instructions import LOADS, NUMERIC, STORES

BLOCKS = ('block', 'loop')
IF, ELSE, END = 'if', 'else', 'end'

_NAMES = {
    '': 'unreachable nop else end return drop select ref.is_null ref.as_non_null',
    'shape': 'block loop if',
    'index': (
        'br br_if call return_call call_ref return_call_ref br_on_null br_on_non_null local.get local.set local.tee '
        'global.get global.set table.get table.set table.grow table.size table.fill elem.drop data.drop ref.func '
        'memory.size memory.grow memory.fill cont.new suspend'),
    'index index': (
        'call_indirect return_call_indirect table.init table.copy memory.init memory.copy cont.bind switch'),
    'labels index': 'br_table', 'types': 'select_t', 'heap': 'ref.null', 'index clauses': 'resume',
    'i32': 'i32.const', 'i64': 'i64.const',
}

FORMS = {name: tuple(kinds.split()) for kinds, names in _NAMES.items() for name in names.split()}
FORMS |= {name: () for name, _, _ in NUMERIC.values()}
FORMS |= {name: ('alignment', 'offset') for name, _, _ in (LOADS | STORES).values()}


def name_in_tree(name):
    """What the tree calls the instruction that has this name in a text."""
    return 'select t' if name == 'select_t' else name


def name_in_text(name):
    """What a text calls the instruction that has this name in the tree."""
    return name.replace(' ', '_')
