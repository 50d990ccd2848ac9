"""Lines of each kind but instructions, each made wrong in many ways."""

from rows.text_mutations import right_text, sample, wrong_texts
from rows.text_samples import TextSection

SECTION = TextSection('lines')


def row(name, line, front='module', behind=''):
    """The wrong texts of a sample."""
    given = sample(name, front, line, behind)
    SECTION.is_right(right_text(given))
    for way, place, lines in wrong_texts(given):
        SECTION.wrong(f'{name}/{way}', place, lines)


row('module', 'module', front='')

# Types.
row('group', 'rec 2@group', behind='func ->; func ->')
row('function-type', 'func i32@type/any* i64@type* -> i64@type*')
row('continuation-type', 'cont 0@index/any', 'module; func ->')
row('open-type-with-supertypes', 'open 0@index* 1@index* : func -> i64@type*', 'module; open : func -> i64')
row('open-continuation-type', 'open 0@index* : cont 1@index')
row('final-type', 'final 0@index+ : func i32@type* ->', 'module; open : func i32 ->')

# Imports.
row('imported-function', 'import x6d@name/any x66@name func@kind 0@index', 'module; func ->')
row('imported-table', 'import x@name x66@name table@kind null:func@ref 1@limit 2@limit')
row('imported-memory', 'import x6d@name x@name memory@kind 0@limit -@none')
row('imported-global', 'import x6d@name x66@name global i32@type const@mutability')
row('imported-tag', 'import x6d@name x66@name tag 0@index', 'module; func ->', 'tag 0')

# Tables, memories, tags and globals.
row('table', 'table null:func@ref 0@limit -@none')
row('table-with-an-expression', 'table ref:0@ref 1@limit 2@limit init@init', behind='ref.func 0; end')
row('memory', 'memory 0@limit/any 65536@limit')
row('tag', 'tag 0@index', 'module; func ->')
row('global', 'global i32@type const@mutability', behind='i32.const 0; end')

# Exports, the start, segments.
row('export', 'export x6d61696e@name/any func@kind 0@index', behind='export x func 1')
row('start', 'start 0@index', behind='function 0; end')
row('active-elements', 'elem active 0@index ref:func@ref 1@count', behind='i32.const 0; end; ref.func 0; end')
row('passive-elements', 'elem passive null:func@ref 0@count/any')
row('declared-elements', 'elem declare ref:func@ref 1@count', behind='ref.func 0; end')
row('active-data', 'data active 0@index x6162@bytes/any', 'module; memory 0 -', 'i32.const 0; end')
row('passive-data', 'data passive xff00@bytes')

# Functions.
row('function', 'function 0@index', 'module; func ->', 'end')
row('locals', 'local 2@locals i32@type', 'module; func ->; function 0', 'end')
