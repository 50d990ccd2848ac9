"""Scripts of many names. What is to be said of them is clear without a reader."""

from itertools import islice, product
from string import ascii_letters, digits

from rows.sections import CallRow, Section, answered
from script_reader.tokens import KEYWORDS

SECTION = Section('script_names')
NAMES = 100000


def row(name, given, said):
    SECTION.rows.append(CallRow(name, 'check x', given, answered(said)))


def spelled(text):
    return text.encode().hex().upper()


def names():
    """Names of three letters, of which no two are the same."""
    letters = ascii_letters + '_'
    return (name for name in map(''.join, product(letters, letters + digits, letters + digits)) if name not in KEYWORDS)


# Functions that each call another one, and lets of a body; each begins a line of text.
FUNCTIONS = ' '.join(f'fn f{number}() {{ return f{(number * 7919 + 1) % 10000}(); }}' for number in range(10000))
LETS = ''.join(f'let {name}=1;' for name in islice(names(), NAMES))
PIECES = [
    ('functions', f'| {FUNCTIONS}'), ('lets', f'| {LETS}'), ('main', spelled('fn main() { ')), ('end', spelled('}'))]

row('10-000-functions', '@functions @main @end', 'ok script')
row('10-000-functions-and-the-first-again', f'@functions {spelled("fn f0() { }")} @main @end', 'rule 10000 1')
row('10-000-functions-without-main', '@functions', 'rule 10000 18')
row('100-000-names', '@main @lets @end', 'limit size')
row('100-000-names-and-the-first-again', f'@main @lets {spelled("let aaa=2;")} @end', 'rule 0 6')
row('100-000-names-and-one-that-is-not-bound', f'@main @lets {spelled("print aaaa;")} @end', 'rule 0 10')
row('100-000-names-behind-their-block', f'@main {spelled("if 1 {")} @lets {spelled("} print aab;")} @end', 'rule 0 10')
