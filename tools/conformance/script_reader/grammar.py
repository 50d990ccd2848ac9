"""The grammar of scripts, as it is written, and its plain productions.

In a right side a quoted text is a token, NAME and INT are tokens, `x?` may be left out, and `x*` stands any number of
times.
"""

import re

GRAMMAR = """
script := decl*
decl := 'effect' NAME '/' INT ';'
decl := 'fn' NAME '(' params? ')' block
decl := 'handler' NAME '(' params? ')' '{' 'return' '(' NAME ')' block clause* '}'
decl := 'slots' NAME ':' 'res' NAME '[' INT ']' ';'
params := param (',' param)*
param := NAME (':' 'res' NAME)?
param := NAME ':' 'coro'
clause := 'on' NAME '(' (NAME (',' NAME)*)? ')' NAME block
block := '{' stmt* '}'
stmt := 'let' NAME '=' expr ';'
stmt := NAME '=' expr ';'
stmt := 'if' expr block ('else' block)?
stmt := 'while' expr block
stmt := 'print' expr ';'
stmt := 'return' expr ';'
stmt := 'fail' ';'
stmt := 'store' NAME '[' expr ']' '=' NAME ';'
stmt := 'take' NAME '=' NAME '[' expr ']' ';'
stmt := 'spawn' NAME '=' NAME ';'
stmt := 'switch' NAME ',' NAME '=' NAME '(' expr ')' ';'
stmt := expr ';'
expr := and ('||' and)*
and := cmp ('&&' cmp)*
cmp := sum (comparison sum)?
comparison := '=='
comparison := '!='
comparison := '<'
comparison := '<='
comparison := '>'
comparison := '>='
sum := prod (summing prod)*
summing := '+'
summing := '-'
prod := unary (multiplying unary)*
multiplying := '*'
multiplying := '/'
multiplying := '%'
unary := prefix? prim
prefix := '-'
prefix := '!'
prim := INT
prim := NAME
prim := NAME '(' args? ')'
prim := '(' expr ')'
prim := 'do' NAME '(' args? ')'
prim := 'handle' NAME '(' args? ')' 'with' NAME '(' args? ')'
prim := 'resume' NAME '(' expr ')' 'with' '(' args? ')'
prim := 'group' NAME '(' expr ')'
args := expr (',' expr)*
"""

REPEATED = '+'      # begins the name of what stands once or more often, which leaves nothing in trees


class _Right:
    """The right side of a production, read into the rows that it stands for."""

    def __init__(self, text, productions):
        self.words = re.findall(r"'[^']*'|\w+|[()?*]", text)
        self.productions = productions

    def rows(self):
        """All rows of tokens and names up to a closing parenthesis or the end."""
        rows = [[]]
        while self.words and self.words[0] != ')':
            part = self._part()
            rows = [row + more for row in rows for more in part]
        return rows

    def _part(self):
        word = self.words.pop(0)
        if word == '(':
            part = self.rows()
            self.words.pop(0)
        else:
            part = [[word]]
        mark = self.words.pop(0) if self.words and self.words[0] in '?*' else ''
        if mark == '*':
            part = [[self._repeated(part)]]
        return [[], *part] if mark else part

    def _repeated(self, part):
        """The name of what stands once or more often."""
        name = f'{REPEATED}{len(self.productions)}'
        self.productions[name] = part + [[name, *row] for row in part]
        return name


def _productions():
    """For each name its rows of tokens, which are quoted or in capitals, and of names."""
    productions = {}
    for line in GRAMMAR.strip().split('\n'):
        name, _, right = line.partition(' := ')
        rows = _Right(right, productions).rows()
        productions.setdefault(name, []).extend(rows)
    return productions


PRODUCTIONS = _productions()
