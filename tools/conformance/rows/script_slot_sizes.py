"""Scripts with slots as large or as long as one may be. What is to be said of them is clear without a reader, which
judges those of at most 100,000 bytes too."""

from rows.script_sizes import digits, filled
from rows.sections import CallRow, Section, answered

SECTION = Section('sizes')
HANDLER = 'handler h() { return(x) { } } '
# A size of 3 for the handler, its return clause and the name in it, 1 for the slots, and 2 for a function and its
# parameter; and of 1 for main.
IN_FUNCTION = HANDLER + 'slots s: res h [3]; fn f(k: res h) { '
BEHIND = '} fn main() { }'
ROUND = 7


def row(name, words, said):
    """A script that is spelled by words, each of text with a number of times, where it is checked."""
    SECTION.rows.append(CallRow(name, 'check x', _spelled(words), answered(said)))


def _spelled(words):
    return ' '.join(f'{digits(text)}*{times}' for text, times in words)


def filled_up(name, size, *parts):
    """Rows of a size of 50,000 and of one more: parts of a function and the size that they have, and statements of a
    size of 2 and of 1 behind them."""
    twos, ones = divmod(50000 - ROUND - size, 2)
    for end, more, said in [('50-000', 0, 'ok script'), ('50-001', 1, 'limit size')]:
        words = [(IN_FUNCTION, 1), *parts, ('1;', twos), ('fail;', ones + more), (BEHIND, 1)]
        row(f'{name}/{end}', [word for word in words if word[1]], said)


# 1 for each statement, and that of the place: a literal, a literal, and three literals with two operators.
filled_up('stores-and-takes', 2 + 2 + 6, ('take l=s[0];store s[1]=l;store s[1+0+1]=k;', 1))
# 1 for the take, 1 for the call and 1 for its argument, and 2 for the print and its literal.
filled_up('places-of-calls', 1 + 2 + 2, ('take l=s[f((k))];print 1;', 1))
DECLARED = ''.join(f'slots s{number}: res h [65536]; ' for number in range(1000))
for end, more, said in [('50-000', '', 'ok script'), ('50-001', 'fail;', 'limit size')]:
    # The handler has 3, the slots 1,000, main 1 and its statements 48,996.
    row(f'a-thousand-slots/{end}', [(f'{HANDLER}{DECLARED}fn main() {{ ', 1), ('1;', 24498), (more + '}', 1)], said)
STORES = [(IN_FUNCTION, 1), ('store s[0]=k;', 24996)]
row('stores/50-000', [*STORES, ('fail;', 1), (BEHIND, 1)], 'ok script')
row('stores/50-001', [*STORES, ('fail;', 2), (BEHIND, 1)], 'limit size')
row('stores/50-001-and-a-rule', [*STORES, ('fail;x;', 1), (BEHIND, 1)], 'rule 2 10')
SECTION.rows.append(CallRow(
    'stores/50-000/run', 'run x', _spelled([*STORES, ('fail;', 1), (BEHIND, 1)]), ['out | = 0']))
SECTION.rows.append(CallRow(
    'stores/50-001/run', 'run x', _spelled([*STORES, ('fail;', 2), (BEHIND, 1)]), answered('limit size')))
row('stores', filled(IN_FUNCTION, 'store s[0]=k;', BEHIND), 'limit size')
row('takes-of-one-name', filled(IN_FUNCTION, 'take l=s[0];', BEHIND), 'rule 2 6')
row('slots-of-one-name', filled(f'{HANDLER}fn main() {{ }} ', 'slots s: res h [1]; ', ''), 'rule 3 1')
row('one-number-of-slots', filled(f'{HANDLER}fn main() {{ }} slots s: res h [', '0', '1];'), 'ok script')
row('one-place', filled(f'{IN_FUNCTION}take l=s[0', '+0', f']; {BEHIND}'), 'limit size')
# Brackets don't count as nesting.
row('only-opened-brackets-behind-a-brace', filled('fn main() { ', '[', ''), 'parse 5')
row('only-closed-brackets', filled('', ']', ''), 'parse 0')
