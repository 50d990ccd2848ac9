"""Scripts as long or as large as one may be. What is to be said of them is clear without a reader."""

from rows.sections import CallRow, Section, answered

SECTION = Section('script_sizes')
LENGTH = 1048576


def digits(text):
    return text.encode().hex().upper()


def row(name, words, said):
    """A script that is spelled by words, each of text with a number of times, or of text alone."""
    spelled = ' '.join(f'{digits(text)}*{times}' for text, times in words)
    SECTION.rows.append(CallRow(name, 'check x', spelled, answered(said)))


def filled(front, part, back):
    """So many of a part between a front and a back that the script is as long as one may be, with spaces behind it."""
    times = (LENGTH - len(front) - len(back)) // len(part)
    left = LENGTH - len(front) - len(back) - times * len(part)
    return [(front, 1), (part, times), (back, 1)] + ([(' ', left)] if left else [])


row('one-byte-more', [(' ', LENGTH + 1)], 'limit script')
row('separators', [(' ', LENGTH)], 'rule 0 18')
row('separators-and-main', filled('fn main() { }', ' ', ''), 'ok script')
row('a-comment', filled('fn main() { } #', 'a', ''), 'ok script')
row('comments', filled('fn main() { }', '#\n', ''), 'ok script')
row('one-run-of-operators', filled('fn main() { return 1', '+1', '; }'), 'limit size')
row('one-run-of-connectives', filled('fn main() { return 1', '||1', '; }'), 'limit size')
row('24-999-statements', [('fn main() { ', 1), ('1;', 24999), ('}', 1)], 'ok script')
row('24-999-statements-and-a-fail', [('fn main() { ', 1), ('1;', 24999), ('fail; }', 1)], 'ok script')
row('25-000-statements', [('fn main() { ', 1), ('1;', 25000), ('}', 1)], 'limit size')
row('25-000-statements-and-a-rule', [('fn main() { ', 1), ('1;', 25000), ('x; }', 1)], 'rule 0 10')
row('statements', filled('fn main() { ', '1;', '}'), 'limit size')
row('assignments', filled('fn main() { let x=1; ', 'x=x;', '}'), 'limit size')
row('blocks-nested-as-far-as-may-be', filled('fn main() { ', 'if 1{' * 63 + '}' * 63, '}'), 'limit size')
row('parentheses-nested-as-far-as-may-be', filled('fn main() { ', '(' * 63 + '1' + ')' * 63 + ';', '}'), 'ok script')
row('one-name', filled('fn main() { let ', 'a', '=1; }'), 'ok script')
row('one-name-read', filled('fn main() { return ', 'a', '; }'), 'rule 0 10')
row('one-number', filled('fn main() { return ', '0', '; }'), 'ok script')
row('one-argument-list', filled('fn main() { main(1', ',1', '); }'), 'rule 0 15')
row('one-parameter-list', filled('fn f(a', ',a', ') { } fn main() { }'), 'rule 0 3')
row('effects-of-one-name', filled('fn main() { } ', 'effect e/0;', ''), 'rule 2 1')
row('clauses-of-no-effect', filled('handler h() { return(x) { } ', 'on e() k { } ', '} fn main() { }'), 'rule 0 4')
CLAUSES = [(') { return(x) { } ', 1), ('on e() k { } ', 45000), ('} fn main() { }', 1)]
row('parameters-for-many-clauses', [('handler h(a', 1), (',a', 200000), *CLAUSES], 'rule 0 3')
row('a-long-parameter-for-many-clauses', [('handler h(a', 1), ('a', 400000), *CLAUSES], 'rule 0 4')
row(
    'a-long-name-beside-many', [('fn main() { let a', 1), ('a', 500000), ('=1; ', 1), ('aa;', 170000), ('}', 1)],
    'rule 0 10')
row('a-byte-that-begins-no-token-at-the-end', filled('fn main() { }', ' ', '?'), f'lex {LENGTH - 1}')
row('a-brace-too-few-at-the-end', filled('fn main() { ', '1;', ' '), 'parse ' + str(5 + 2 * ((LENGTH - 13) // 2)))
row('zeros', [('\0', LENGTH)], 'lex 0')
row('opened-parentheses', filled('fn main() { ', '(', ''), 'deep')
