"""Scripts that break rules, and their neighbours that don't."""

from rows.script_samples import ScriptSection

SECTION = ScriptSection('rules')
ORDER = ScriptSection('order')
MAIN = 'fn main() { }\n'
H = (
    'effect e/1; effect z/0; fn f(a) { } fn n() { } '
    'handler h(s) { return(x) { return x; } on e(w) k { return resume k(w) with (s); } }\n')
R = 'fn r(k: res h, v) { return resume k(v) with (v); }\n'
J = 'handler j(k: res h) { return(x) { } on z() l { } }\n'


def names(count, front='a'):
    """So many names with commas."""
    return ', '.join(f'{front}{number}' for number in range(count))


def in_clause(statements, front=H + R + J):
    """A script with a clause of a handler h2, whose resumption is k, of these statements."""
    return f'{front}handler h2(s) {{ return(x) {{ }} on e(w) k {{ {statements} }} }}\n{MAIN}'


def in_function(statements, front=H + R + J):
    """A script with a function of a resumption k of h and a number v."""
    return f'{front}fn g(k: res h, v) {{ {statements} }}\n{MAIN}'


# For each rule: scripts that break it alone, and their neighbours.
RULES = {
    1: {
        'a-function-twice': 'fn a() { } fn a() { } ' + MAIN,
        'kinds-share-names': 'effect a/0; fn a() { } ' + MAIN,
        'a-handler-as-an-effect': 'effect a/0; handler a() { return(x) { } } ' + MAIN,
        'main-twice': MAIN + MAIN,
        'three-times': 'effect a/0; effect a/1; effect a/2; ' + MAIN,
        'neighbour/two-names': 'fn a() { } fn b() { } ' + MAIN,
        'neighbour/a-value-name': 'fn a(a) { let b = a; } ' + MAIN,
        'neighbour/a-longer-name': 'fn a() { } fn aa() { } ' + MAIN,
        'neighbour/another-case': 'fn a() { } fn A() { } ' + MAIN,
    },
    2: {
        'nine': 'effect a/9; ' + MAIN,
        'many': 'effect a/9223372036854775807; ' + MAIN,
        'neighbour/eight': 'effect a/8; ' + MAIN,
        'neighbour/none': 'effect a/0; ' + MAIN,
    },
    3: {
        'nine-of-a-function': f'fn a({names(9)}) {{ }} ' + MAIN,
        'nine-of-a-handler': f'handler a({names(9)}) {{ return(x) {{ }} }} ' + MAIN,
        'neighbour/eight-of-a-function': f'fn a({names(8)}) {{ }} ' + MAIN,
        'neighbour/eight-of-a-handler': f'handler a({names(8)}) {{ return(x) {{ }} }} ' + MAIN,
    },
    4: {
        name: ''.join(f'effect e{number}/0; ' for number in range(count)) + 'handler a() { return(x) { } '
        + ''.join(f'on e{number}() k {{ }} ' for number in range(count)) + '} ' + MAIN
        for name, count in [('seventeen', 17), ('neighbour/sixteen', 16)]},
    5: {
        'nothing': 'fn a(k: res b) { } ' + MAIN,
        'a-function': 'fn a(k: res a) { } ' + MAIN,
        'an-effect': 'effect b/0; fn a(k: res b) { } ' + MAIN,
        'of-a-handler': 'handler a(k: res b) { return(x) { } } ' + MAIN,
        'the-second-parameter': 'fn a(v, k: res b) { } ' + MAIN,
        'neighbour/a-handler': 'fn a(k: res b) { } handler b() { return(x) { } } ' + MAIN,
        'neighbour/itself': 'handler a(k: res a) { return(x) { } } ' + MAIN,
        'a-handler-behind-a-function': 'fn b() { } handler b() { return(x) { } } fn a(k: res b) { } ' + MAIN,
    },
    6: {
        'two-lets': 'fn main() { let x = 1; let x = 2; }\n',
        'two-parameters': 'fn a(x, x) { } ' + MAIN,
        'a-let-and-a-parameter': 'fn a(x) { let x = 1; } ' + MAIN,
        'in-two-blocks': 'fn main() { if 1 { let x = 1; } else { let x = 2; } }\n',
        'in-a-loop': 'fn main() { let x = 1; while x { let x = 2; } }\n',
        'in-two-loops': 'fn main() { while 1 { let x = 1; } while 1 { let x = 1; } }\n',
        'the-return-clause': 'handler a(x) { return(x) { } } ' + MAIN,
        'a-let-in-the-return-clause': 'handler a() { return(x) { let x = 1; } } ' + MAIN,
        'a-let-and-a-parameter-of-the-handler': 'handler a(s) { return(x) { let s = 1; } } ' + MAIN,
        'an-argument-and-a-parameter': 'effect e/1; handler a(s) { return(x) { } on e(s) k { } } ' + MAIN,
        'the-resumption-and-a-parameter': 'effect e/1; handler a(k) { return(x) { } on e(w) k { } } ' + MAIN,
        'two-arguments': 'effect e/2; handler a() { return(x) { } on e(w, w) k { } } ' + MAIN,
        'an-argument-and-the-resumption': 'effect e/1; handler a() { return(x) { } on e(k) k { } } ' + MAIN,
        'a-let-and-the-resumption': in_clause('let k = 1;'),
        'the-second-clause': (
            'effect e/0; effect f/0; handler a(s) { return(x) { } on e() k { } on f() s { } } ' + MAIN),
        'two-parameters-of-a-handler': 'handler a(s, s) { return(x) { } } ' + MAIN,
        'neighbour/in-two-functions': 'fn a() { let x = 1; } fn b() { let x = 1; } ' + MAIN,
        'neighbour/in-two-clauses': (
            'effect e/1; effect f/1; handler a() { return(x) { let y = 1; } on e(x) k { let y = 1; } on f(x) '
            'k { let y = 1; } } ' + MAIN),
        'neighbour/a-declaration': 'fn main() { let main = 1; print main; }\n',
    },
    7: {
        'twice': 'effect e/0; handler a() { return(x) { } on e() k { } on e() k { } } ' + MAIN,
        'with-another-between': (
            'effect e/0; effect f/0; handler a() { return(x) { } on e() k { } on f() k { } on e() k { } } ' + MAIN),
        'neighbour/in-two-handlers': (
            'effect e/0; handler a() { return(x) { } on e() k { } } handler b() { return(x) { } on e() k { } } '
            + MAIN),
        'neighbour/no-effect-twice': 'handler a() { return(x) { } on e() k { } on e() k { } } ' + MAIN,
    },
    8: {
        'nothing': 'handler a() { return(x) { } on e() k { } } ' + MAIN,
        'a-function': 'handler a() { return(x) { } on main() k { } } ' + MAIN,
        'itself': 'handler a() { return(x) { } on a() k { } } ' + MAIN,
        'an-effect-behind-a-function': 'fn e() { } effect e/0; handler a() { return(x) { } on e() k { } } ' + MAIN,
        'neighbour/declared-behind': 'handler a() { return(x) { } on e() k { } } effect e/0; ' + MAIN,
    },
    9: {
        'one-too-many': 'effect e/1; handler a() { return(x) { } on e(v, w) k { } } ' + MAIN,
        'one-too-few': 'effect e/1; handler a() { return(x) { } on e() k { } } ' + MAIN,
        'by-the-first-declaration': 'effect e/1; effect e/2; handler a() { return(x) { } on e(v, w) k { } } ' + MAIN,
        'neighbour/as-many': 'effect e/2; handler a() { return(x) { } on e(v, w) k { } } ' + MAIN,
        'neighbour/eight': f'effect e/8; handler a() {{ return(x) {{ }} on e({names(8)}) k {{ }} }} ' + MAIN,
    },
    10: {
        'read': 'fn main() { return y; }\n',
        'assigned': 'fn main() { y = 1; }\n',
        'resumed': H + 'fn main() { return resume y(1) with (1); }\n',
        'by-its-own-let': 'fn main() { let x = x; }\n',
        'behind-its-block': 'fn main() { if 1 { let x = 1; } print x; }\n',
        'in-the-other-block': 'fn main() { if 1 { let x = 1; } else { print x; } }\n',
        'behind-its-loop': 'fn main() { while 1 { let x = 1; } x = 2; }\n',
        'before-its-let': 'fn main() { print x; let x = 1; }\n',
        'in-a-condition': 'fn main() { while x { let x = 1; } }\n',
        'of-another-function': 'fn a(x) { } fn main() { print x; }\n',
        'of-another-clause': 'effect e/1; handler a() { return(x) { print w; } on e(w) k { } } ' + MAIN,
        'the-resumption-in-the-return-clause': (
            'effect e/1; handler a() { return(x) { print k; } on e(w) k { } } ' + MAIN),
        'a-function': 'fn main() { print main; }\n',
        'as-an-argument': H + 'fn main() { f(y); }\n',
        'in-a-run': 'fn main() { print 1 + 2 * y; }\n',
        'behind-a-prefix': 'fn main() { print -y; }\n',
        'as-an-argument-of-resume': in_clause('resume k(y) with (1);'),
        'in-with': in_clause('resume k(1) with (y);'),
        'neighbour/in-an-inner-block': 'fn main() { let x = 1; if x { while x { x = x - 1; print x; } } }\n',
        'neighbour/by-a-later-let': 'fn main() { let x = 1; let y = x; print y; }\n',
        'neighbour/a-parameter': 'fn a(x) { print x; } ' + MAIN,
        'neighbour/behind-an-inner-block': 'fn main() { let x = 1; if 1 { let y = x; } print x; }\n',
    },
    11: {
        'assigned': in_clause('k = 1;'),
        'read': in_clause('print k;'),
        'in-a-let': in_clause('let y = k;'),
        'returned': in_clause('return k;'),
        'in-a-condition': in_clause('if k { }'),
        'in-an-operation': in_function('r(k, k + 1);'),
        'alone': in_clause('k;'),
        'as-an-argument-of-do': in_clause('do e(k);'),
        'as-the-argument-of-resume': in_clause('resume k(k) with (1);'),
        'behind-a-prefix': in_function('f(-k);'),
        'neighbour/an-argument': in_function('r(k, v);'),
        'neighbour/in-parentheses': in_function('r((k), v);'),
        'neighbour/in-a-list-of-handle': in_function('handle r(k, v) with j(k);'),
        'neighbour/assigned-a-number': in_function('v = 1;'),
    },
    12: {
        'nothing-called': 'fn main() { g(); }\n',
        'nothing-handled': H + 'fn main() { handle g() with h(1); }\n',
        'an-effect': 'effect g/0; fn main() { g(); }\n',
        'a-handler': H + 'fn main() { h(1); }\n',
        'a-value-name': 'fn main() { let g = 1; g(); }\n',
        'a-function-behind-an-effect': 'effect g/0; fn g() { } fn main() { g(); }\n',
        'neighbour/itself': 'fn main() { main(); }\n',
        'neighbour/declared-behind': 'fn main() { g(); } fn g() { }\n',
    },
    13: {
        'nothing': 'fn main() { do g(); }\n',
        'a-function': 'fn main() { do main(); }\n',
        'a-handler': H + 'fn main() { do h(1); }\n',
        'neighbour/an-effect': H + 'fn main() { do e(1); }\n',
    },
    14: {
        'nothing': H + 'fn main() { handle n() with g(); }\n',
        'a-function': H + 'fn main() { handle n() with f(1); }\n',
        'an-effect': H + 'fn main() { handle n() with e(1); }\n',
        'neighbour/a-handler': H + 'fn main() { handle n() with h(1); }\n',
    },
    15: {
        'a-call-too-many': H + 'fn main() { f(1, 2); }\n',
        'a-call-too-few': H + 'fn main() { f(); }\n',
        'a-do-too-many': H + 'fn main() { do e(1, 2); }\n',
        'a-do-too-few': H + 'fn main() { do e(); }\n',
        'a-handle-too-many': H + 'fn main() { handle f(1, 2) with h(1); }\n',
        'a-handler-too-few': H + 'fn main() { handle f(1) with h(); }\n',
        'a-resume-too-few': in_clause('resume k(1) with ();'),
        'a-resume-too-many': in_clause('resume k(1) with (1, 2);'),
        'by-the-handler-of-the-type': in_function('resume k(1) with ();'),
        'within-an-argument': H + 'fn main() { f(f()); }\n',
        'neighbour/as-many': H + 'fn main() { f(f(1)); do e(1); handle f(1) with h(1); }\n',
        'neighbour/in-a-resume': in_clause('resume k(1) with (2);'),
    },
    16: {
        'an-expression': in_function('r(k + 1, v);', H + R),
        'a-number': in_function('r(1, v);'),
        'a-number-by-name': in_function('r(v, v);'),
        'a-call': in_function('r(n(), v);'),
        'of-another-handler': in_clause('r(k, w);'),
        'a-resumption-for-a-number': in_function('r(k, k);'),
        'in-a-handle': in_function('handle r(1, v) with h(1);'),
        'for-a-handler': in_function('handle n() with j(v);'),
        'a-resumption-for-a-handlers-number': in_function('handle n() with h(k);'),
        'in-with': in_clause('resume k(1) with (k);'),
        'in-parentheses': in_function('r((v), v);'),
        'neighbour/of-the-handler': in_function('r(k, 1); r(k, v + 1); f(v); handle n() with j(k);'),
    },
    17: {
        'a-parameter': H + 'fn g(v) { resume v(1) with (1); } ' + MAIN,
        'a-let': H + 'fn main() { let v = 1; resume v(1) with (1); }\n',
        'an-argument': in_clause('resume w(1) with (1);'),
        'neighbour/a-resumption': in_clause('resume k(w) with (w);'),
    },
    18: {
        'nothing': '',
        'another-name': 'fn mian() { }\n',
        'a-parameter': 'fn main(a) { }\n',
        'an-effect': 'effect main/0;\n',
        'a-handler': 'handler main() { return(x) { } }\n',
        'behind-an-effect': 'effect main/0; fn main() { }\n',
        'another-case': 'fn Main() { }\n',
        'behind-two': 'fn a() { } fn b() { }\n',
        'neighbour/the-last': 'fn a() { } fn b() { } ' + MAIN,
    },
}

for rule, scripts in RULES.items():
    for name, text in scripts.items():
        SECTION.row(f'rule-{rule}/{name}', text)

# Of each two rules one is broken by an earlier declaration, and by one declaration both. Each is also broken by two.
ONES = {
    1: 'fn NAME() { } fn NAME() { }',
    4: 'handler NAME() { return(x) { } ' + ''.join(f'on e{number}() k {{ }} ' for number in range(17)) + '}',
    7: 'handler NAME() { return(x) { } on z() k { } on z() l { } }',
    8: 'handler NAME() { return(x) { } on nothing() k { } }',
    9: 'handler NAME() { return(x) { } on z(a) k { } }',
    11: 'fn NAME(k: res h, v) { print k; }',
    16: 'fn NAME(k: res h, v) { r(v, v); }',
    2: 'effect NAME/9;',
    3: f'fn NAME({names(9)}) {{ }}',
    5: 'fn NAME(k: res nothing) { }',
    6: 'fn NAME(a, a) { }',
    10: 'fn NAME() { print y; }',
    12: 'fn NAME() { nothing(); }',
    13: 'fn NAME() { do nothing(); }',
    14: 'fn NAME() { handle main() with nothing(); }',
    15: 'fn NAME() { main(1); }',
    17: 'fn NAME(v) { resume v(1) with (); }'}
for first, one in ONES.items():
    for second, other in ONES.items():
        ORDER.row(f'{first}-before-{second}', f'{H}{R}{one.replace("NAME", "a")} {other.replace("NAME", "b")} ' + MAIN)
        again = f'{one.replace("NAME", "a")} {other.replace("NAME", "a")}'
        ORDER.row(f'{first}-and-a-name-again-by-{second}', f'{H}{R}{MAIN}{again}')
BODIES = {
    10: 'print y;', 11: 'print k;', 12: 'nothing();', 13: 'do nothing();', 14: 'handle main() with nothing();',
    15: 'main(1);', 16: 'r(v, v);', 17: 'resume v(1) with ();'}
for first, one in BODIES.items():
    for second, other in BODIES.items():
        if first != second:
            ORDER.row(f'in-one-body/{first}-and-{second}', in_function(f'{one} {other}'))
for rule, body in BODIES.items():
    ORDER.row(f'in-one-body/6-and-{rule}', in_function(f'{body} let v = 1;'))
    ORDER.row(f'behind-a-shadowed-name/{rule}', in_function(f'let k = 1; {body}'))
    ORDER.row(f'behind-the-declarations/{rule}', in_function(body).replace('main()', 'main(a)'))
ORDER.is_said('two-lets', 'rule 0 6', 'fn main() { let x = 1; let x = 2; }')
ORDER.is_said('the-least-declaration', 'rule 0 10', 'fn main() { return y; } fn main() { }')
ORDER.is_said('an-effect-of-nine', 'rule 0 2', 'effect e/9; fn main() { return x; }')
