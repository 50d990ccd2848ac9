"""Scripts with coroutines as large or as long as one may be. What is to be said of them is clear without a reader,
which judges those of at most 100,000 bytes too."""

from rows.script_sizes import digits, filled
from rows.sections import CallRow, Section, answered

SECTION = Section('sizes')
# A size of 2 for a function and its parameter, of 3 for one of two parameters, and of 1 for main.
FUNCTIONS = 'fn f(x) { return x; } fn c(x, p: coro) { '
OF_FUNCTIONS = 2 + 2 + 3 + 1
BEHIND = '} fn main() { }'


def row(name, words, said, command='check x'):
    """A call on a script that is spelled by words, each of text with a number of times."""
    given = ' '.join(f'{digits(text)}*{times}' for text, times in words if times)
    SECTION.rows.append(CallRow(name, command, given, said))


def filled_up(name, size, *parts, two='00001;'):
    """Rows of a size of 50,000 and of one more: parts of the second function and the size that they have, and
    statements of a size of 2 and of 1 behind them. With short ones of 2 the second reader judges them too, in many
    seconds."""
    twos, ones = divmod(50000 - OF_FUNCTIONS - size, 2)
    for end, more, said in [('50-000', 0, 'ok script'), ('50-001', 1, 'limit size')]:
        words = [(FUNCTIONS, 1), *parts, (two, twos), ('fail;', ones + more), (BEHIND, 1)]
        row(f'{name}/{end}', words, answered(said))


filled_up('a-spawn', 2, ('spawn t=c;', 1))
# A switch has 2, and 1 for its number.
filled_up('a-switch', 2 + 1, ('switch y,u=p(1);', 1))
# 2 for a switch, and 5 for three numbers and two operators.
filled_up('a-switch-of-a-sum', 2 + 5, ('switch y,u=p(1+2*3);', 1))
# A statement, a group, and its number; of two groups both have 1.
filled_up('a-group', 1 + 1 + 1, ('group f(1);', 1))
filled_up('a-group-of-a-group', 1 + 2 + 1, ('group f(group f(x));', 1))
# 2 for a switch, 1 for the group in it, and 3 for a sum.
filled_up('a-switch-of-a-group', 2 + 1 + 3, ('switch y,u=p(group f(x-1));', 1), two='1;')
filled_up('a-spawn-and-switches', 2 + 3 + 3, ('spawn t=c;switch y,u=t(x);switch z,v=u(y);', 1), two='1;')
# 1 for the print, 1 for the call, 1 for each argument.
filled_up('arguments', 4, ('print c(1,p);', 1))
GROUPS = [(FUNCTIONS, 1), ('group f(1);', 16664)]      # of 3 each
for end, more, said in [('50-000', 0, 'ok script'), ('50-001', 1, 'limit size')]:
    # Main has 1; each function has 3.
    parts = ''.join(f'fn c{number}(x, p: coro) {{ }} ' for number in range(100))
    words = [(parts, 1), ('fn main() { ', 1), ('00001;', 24849), ('fail;', 1 + more), ('}', 1)]
    row(f'a-hundred-functions/{end}', words, answered(said))
    row(f'groups/{end}', [*GROUPS, ('fail;', more), (BEHIND, 1)], answered(said))
row('groups/50-000/run', [*GROUPS, (BEHIND, 1)], ['out | = 0'], 'run x')
row('groups/50-001/run', [*GROUPS, ('fail;', 1), (BEHIND, 1)], answered('limit size'), 'run x')
row('groups/50-001-and-a-rule', [*GROUPS, ('fail;y;', 1), (BEHIND, 1)], answered('rule 1 10'))
row('groups', filled(FUNCTIONS, 'group f(1);', BEHIND), answered('limit size'))
row('spawns-of-one-name', filled(FUNCTIONS, 'spawn t=c;', BEHIND), answered('rule 1 6'))
row('switches-of-one-target', filled(FUNCTIONS, 'switch y,u=p(1);', BEHIND), answered('rule 1 6'))
row('one-number-of-a-group', filled(f'{FUNCTIONS}group f(', '0', f');{BEHIND}'), answered('ok script'))
row('one-sum-in-a-group', filled(f'{FUNCTIONS}group f(1', '+0', f');{BEHIND}'), answered('limit size'))
