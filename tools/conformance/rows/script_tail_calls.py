"""Runs of scripts with tail calls, and how these are compiled. What a run is to come to was worked out by hand from
what the language says, and the second readers are to come to the same; so were the bytes of code."""

from rows.script_modules import compiled_row
from rows.script_run_samples import ScriptRunSection

CALLS = ScriptRunSection('calls')
ORDER = ScriptRunSection('order')
EFFECTS = ScriptRunSection('effects')
NO_TAIL_CALLS = ScriptRunSection('no-tail-calls')
STEPS = ScriptRunSection('steps')
LIMITS = ScriptRunSection('limits')
MODULES = ScriptRunSection('modules')

SHOWN = 'fn t(n) { print n; return n; }\n'


def compiled(name, text, *codes):
    """How a script is compiled, and codes that its module has somewhere."""
    MODULES.rows.append(compiled_row(name, text, *codes))


def whole(section, name, text, end, *printed):
    """The usual rows of a run, and one of how the script is compiled."""
    section.whole(name, text, end, *printed)
    compiled(name, text)


# ## Calls

ONE_CALL = 'fn f(n) { print n; return n + 1; }\nfn main() { print 1; return f(7); }'
whole(CALLS, 'a-call', ONE_CALL, '= 8', 1, 7)
whole(CALLS, 'parentheses', ONE_CALL.replace('f(7);', '(((f((7)))));'), '= 8', 1, 7)
whole(CALLS, 'without-arguments', 'fn f() { return g(); } fn g() { return 3; } fn main() { return f(); }', '= 3')
whole(CALLS, 'a-callee-without-a-return', '''fn f() { return g(); }
fn g() { print 2; }
fn main() { print f(); return 1 + f(); }''', '= 1', 2, 0, 2)
whole(CALLS, 'three-functions', '''fn a(n) { print n; return b(n * 2); }
fn b(n) { print n; return c(n + 1, n); }
fn c(n, m) { print n - m; return n * m; }
fn main() { print 0; return a(3); }''', '= 42', 0, 3, 6, 1)
whole(CALLS, 'two-that-call-one-another', '''fn even(n) { if n == 0 { return 1; } return odd(n - 1); }
fn odd(n) { if n == 0 { return 0; } return even(n - 1); }
fn main() { print even(300); print even(301); return odd(301); }''', '= 1', 1, 0)
whole(CALLS, 'in-whiles-and-ifs', '''
fn f(n) { while n { print n; if n % 3 == 0 { return g(n); } n = n - 1; } return 50; }
fn g(n) { while 1 { if n { return f(n - 1); } else { return h(n); } } }
fn h(n) { print 7; return n + 8; }
fn main() { print f(5); return g(0); }''', '= 8', 5, 4, 3, 2, 1, 50, 7)
whole(CALLS, 'code-that-is-never-reached', '''
fn f(n) { return g(n); print 1; fail; let x = 1 / 0; while 1 { return x; } }
fn g(n) { print n; return n; }
fn main() { return f(4); return 5; }''', '= 4', 4)
whole(CALLS, 'on-every-path', '''
fn f(n) { if n > 5 { return g(n); } else { if n { return g(n * 10); } else { return f(6); } } }
fn g(n) { print n; return n + 1; }
fn main() { print f(9); print f(3); return f(0); }''', '= 7', 9, 10, 30, 31, 6)
whole(CALLS, 'fibonacci', '''fn fib(n, a, b) { if n { return fib(n - 1, b, a + b); } return a; }
fn main() { return fib(50, 0, 1); }''', '= 12586269025')
whole(CALLS, 'greatest-common-divisor', '''fn gcd(a, b) { print a; if b { return gcd(b, a % b); } return a; }
fn main() { return gcd(1071, 462); }''', '= 21', 1071, 462, 147, 21)
# Ten turns of seven are three.
whole(CALLS, 'eight-parameters', '''
fn turn(n, a, b, c, d, e, f, g) {
if n { return turn(n - 1, b, c, d, e, f, g, a); }
return a * 1000000 + b * 100000 + c * 10000 + d * 1000 + e * 100 + f * 10 + g;
}
fn main() { return turn(10, 1, 2, 3, 4, 5, 6, 7); }''', '= 4567123')
# The variables of the caller are no more those of the callee than in any call.
whole(CALLS, 'names-of-caller-and-callee', '''
fn f(a, b) { let c = a + b; a = 100; return g(c, b); }
fn g(b, a) { let c = 1; c = c + b * 10 + a; return c; }
fn main() { let a = 2; let b = 3; print a; return f(b, a); }''', '= 53', 2)
whole(CALLS, 'a-fault-in-the-callee', '''fn f(n) { return g(n - 3); }
fn g(n) { print n; return 6 / n; }
fn main() { print f(5); return f(3); }''', 'fault divzero', 2, 3, 0)
whole(CALLS, 'a-callee-that-fails', 'fn f() { print 4; fail; } fn main() { return f(); }', 'fault failed', 4)

# ## Order

whole(ORDER, 'arguments-from-the-left', SHOWN + '''
fn f(a, b, c) { print 9; return a * 100 + b * 10 + c; }
fn main() { return f(t(1), t(2) + t(3), t(4)); }''', '= 154', 1, 2, 3, 4, 9)
# But for the outermost these calls are arguments.
whole(ORDER, 'calls-in-one-another', SHOWN + '''fn f(n) { print n; return t(n + 1); }
fn main() { return f(f(f(1))); }''', '= 4', 1, 2, 2, 3, 3, 4)
whole(ORDER, 'a-fault-in-the-arguments', SHOWN + '''fn f(a, b, c) { print 9; return a; }
fn main() { print 1; return f(t(2), 1 / 0, t(3)); }''', 'fault divzero', 1, 2)
whole(ORDER, 'effects', '''effect ask/1;
fn f(a, b) { print 8; return a * 100 + b; }
fn body(n) { print 1; return f(do ask(n), do ask(n + 1)); }
handler h(s) { return(x) { return x + s; } on ask(v) k { print v; return resume k(v * s) with (s + 1); } }
fn main() { return handle body(5) with h(2); }''', '= 1022', 1, 5, 6, 8)
whole(ORDER, 'an-effect-that-is-not-resumed', SHOWN + '''effect stop/1;
fn f(a, b) { print 8; return a * 100 + b; }
fn body() { return f(t(1), do stop(t(2))); }
handler h() { return(x) { return x; } on stop(v) k { print v + 40; return v; } }
fn main() { return handle body() with h(); }''', '= 2', 1, 2, 42)
whole(ORDER, 'an-unhandled-effect', SHOWN + '''effect e/0;
fn f(a, b, c) { print 8; return a; }
fn main() { return f(t(1), do e(), t(2)); }''', 'fault unhandled e', 1)
whole(ORDER, 'handles', SHOWN + '''fn f(a, b) { print 8; return a * 100 + b; }
fn g(n) { print n; return t(n + 1); }
handler h(s) { return(x) { print 20 + s; return x + s; } }
fn main() { return f(handle g(1) with h(t(4)), handle g(t(6)) with h(5)); }''',
      '= 612', 4, 1, 2, 24, 6, 6, 7, 25, 8)
whole(ORDER, 'a-resume', SHOWN + '''effect ask/0;
fn body() { return do ask() + 1; }
fn f(a, b) { print 8; return a * 10 + b; }
handler h(s) { return(x) { print x; return x * 2; } on ask() k { return f(resume k(s) with (s + 1), t(s)); } }
fn main() { return handle body() with h(3); }''', '= 83', 4, 3, 8)

# ## Effects and handlers


def asking(body, clause, returning='return x + s;', more=''):
    """A script with a handler h of one parameter, which is 3 at first, in which a function stands."""
    return f'''effect ask/0;
fn body() {{ {body} }}
fn tell(n) {{ print n; return n * 2; }}
{more}handler h(s) {{
return(x) {{ {returning} }}
on ask() k {{ {clause} }}
}}
fn main() {{ return handle body() with h(3); }}'''


LAST = 'return resume k(s) with (s + 1);'
GO = 'fn go(k: res h, n) { print n; return resume k(n) with (n + 1); }\n'
TWO = 'return do ask() * 10 + do ask();'
whole(EFFECTS, 'in-a-clause', asking('return do ask() + 5;', 'print s; return tell(s + 1);'), '= 8', 3, 4)
whole(EFFECTS, 'in-a-return-clause', asking('return 4;', LAST, 'print x; return tell(x + s);'), '= 14', 4, 7)
whole(EFFECTS, 'in-both', asking(
    'return do ask();', 'if s == 3 { return resume k(s) with (s + 1); } return tell(0);', 'return tell(x + s);'),
      '= 14', 7)
whole(EFFECTS, 'in-a-while-in-a-clause', asking(
    'return do ask();', 'while s { print s; if s == 2 { return tell(s); } s = s - 1; } return 100;'), '= 4', 3, 2, 2)
# Both effects of `last` and `inner` are performed in the place of `body`.
whole(EFFECTS, 'under-a-handle', asking('print 1; return inner(2);', LAST, 'print x; return x + s;', '''
fn inner(n) { let a = do ask(); return last(a, n); }
fn last(a, b) { return do ask() * 100 + a * 10 + b; }
'''.lstrip()), '= 437', 1, 432)
# Each resume gives what the return clause does; the parameter is 4 there.
whole(EFFECTS, 'behind-a-resume', asking(
    'return do ask() * 10;', 'let r = resume k(s) with (s + 1); print r; return tell(r + s);'), '= 74', 34, 37)
whole(EFFECTS, 'behind-a-resume-that-is-printed', asking(
    'return do ask() * 10;', 'print resume k(s) with (s + 1); return tell(s);'), '= 6', 34, 3)
# The first is resumed with 6 and the parameter is 7 then; the second with 14, and it is 15.
whole(EFFECTS, 'a-resumption-as-an-argument', asking(TWO, 'return go(k, s * 2);', more=GO), '= 89', 6, 14)
whole(EFFECTS, 'a-resumption-in-parentheses', asking(TWO, 'return (go((k), s * 2));', more=GO), '= 89', 6, 14)
whole(EFFECTS, 'a-resumption-through-functions', asking('return do ask() + 1;', 'return first((k), 5);', more='''
fn first(k: res h, n) { return second(n + 1, k); }
fn second(n, j: res h) { print n; if n > 8 { return resume j(n) with (n); } return second(n + 1, j); }
'''.lstrip()), '= 19', 6, 7, 8, 9)
whole(EFFECTS, 'a-resumption-that-is-used-twice', asking('return do ask();', 'return twice(k);', more=GO + '''
fn twice(k: res h) { print resume k(1) with (0); return go(k, 2); }
'''.lstrip()), 'fault reused', 1, 2)
whole(EFFECTS, 'a-resumption-that-an-argument-uses', asking(
    'return do ask();', 'return go(k, resume k(5) with (1));', more=GO), 'fault reused', 6)
whole(EFFECTS, 'the-callee-performs-an-effect', '''effect ask/0;
fn outer() { print 1; let a = middle(5); print a; return a + 1; }
fn middle(n) { return deep(n * 2); }
fn deep(n) { print n; let v = do ask(); print v; return v + n; }
handler h() {
return(x) { return x * 2; }
on ask() k { print 3; let r = resume k(7) with (); print r; return r + 100; }
}
fn main() { return handle outer() with h(); }''', '= 136', 1, 10, 3, 7, 17, 36)
OUTER = '''effect a/0;
fn body() { BODY }
fn asks(n) { print n; return do a() + n; }
fn mid() { return handle body() with h(); }
handler h() { return(x) { RETURN } on a() k { return asks(4); } }
handler o() { return(x) { print x; return x + 1; } on a() k { return resume k(30) with (); } }
fn main() { return handle MAIN; }'''


def under_another(body, returning, handled):
    """A clause, and maybe a return clause, whose callee performs the same effect."""
    return OUTER.replace('BODY', body).replace('RETURN', returning).replace('MAIN', handled)


whole(EFFECTS, 'the-callee-of-a-clause-is-under-the-outer-handle', under_another(
    'return do a();', 'return x * 1000;', 'mid() with o()'), '= 35', 4, 34)
whole(EFFECTS, 'the-callee-of-a-clause-is-under-no-handle', under_another(
    'return do a();', 'return x * 1000;', 'body() with h()'), 'fault unhandled a', 4)
whole(EFFECTS, 'the-callee-of-a-return-clause-is-under-the-outer-handle', under_another(
    'return 6;', 'return asks(x);', 'mid() with o()'), '= 37', 6, 36)
whole(EFFECTS, 'the-callee-of-a-return-clause-is-under-no-handle', under_another(
    'return 6;', 'return asks(x);', 'body() with h()'), 'fault unhandled a', 6)
# The first task ends in the first turn; the second one goes on, is stored in place 2, and ends.
whole(EFFECTS, 'a-ring-of-tasks', '''effect pause/0;
slots ring: res task [4];
fn run(id, n) { if n { print id * 10 + n; do pause(); return run(id, n - 1); } return id; }
handler task(place) { return(x) { print x; return 1; } on pause() k { store ring[place] = k; return 0; } }
fn turn(first, behind) {
if first == behind { return first; }
take k = ring[first % 4];
return turned(resume k(0) with (behind % 4), first + 1, behind);
}
fn turned(ended, first, behind) { if ended { return turn(first, behind); } return turn(first, behind + 1); }
fn main() { handle run(1, 1) with task(0); handle run(2, 2) with task(1); return turn(0, 2); }''',
      '= 3', 11, 22, 1, 21, 2)

# ## Returns that are no tail calls

# Each f(n) leaves its activation beneath f(n - 1), so that f(19999) takes 20,000 of them.
DOWN = '''fn f(n) { if n { BACK } return 0; }
fn g(n) { return n; }
'''
for name, back in [
        ('a-sum', 'return 0 + f(n - 1);'), ('a-sum-behind-it', 'return f(n - 1) + 0;'),
        ('a-product', 'return (f(n - 1)) * 1;'), ('a-negation', 'return -f(n - 1);'), ('not', 'return !(!f(n - 1));'),
        ('a-connective', 'return 1 && f(n - 1);'), ('a-name', 'let r = f(n - 1); return r;'),
        ('a-statement', 'f(n - 1); return 0;'), ('an-argument', 'return g(f(n - 1));')]:
    text = DOWN.replace('BACK', back)
    NO_TAIL_CALLS.is_known(f'{name}/19999', f'{text}fn main() {{ return f(19999); }}', '= 0')
    NO_TAIL_CALLS.is_known(f'{name}/20000', f'{text}fn main() {{ return f(20000); }}', 'limit frames')
SUMS = DOWN.replace('BACK', 'return 0 + f(n - 1);')
NO_TAIL_CALLS.is_known('in-main/19998', SUMS + 'fn main() { return 0 + f(19998); }', '= 0')
NO_TAIL_CALLS.is_known('in-main/19999', SUMS + 'fn main() { return 0 + f(19999); }', 'limit frames')
whole(NO_TAIL_CALLS, 'return-do', asking('return do ask();', 'return resume k(8) with (s);'), '= 11')
whole(NO_TAIL_CALLS, 'return-handle', '''fn f(n) { if n { return handle f(n - 1) with h(n); } return 7; }
handler h(s) { return(x) { print s; return x + s; } }
fn main() { return f(3); }''', '= 13', 1, 2, 3)
whole(NO_TAIL_CALLS, 'return-resume', asking(TWO, LAST), '= 39')
# A function's resume leaves its activation there: main, 19,997 of `go`, the body and one handle are 20,000.
RESUMING = '''effect tick/0;
fn body() {{ let i = 0; while i < {} {{ do tick(); i = i + 1; }} return i; }}
fn go(k: res h) {{ return resume k(0) with (); }}
handler h() {{ return(x) {{ return x; }} on tick() k {{ return go(k); }} }}
fn main() {{ return handle body() with h(); }}'''
NO_TAIL_CALLS.is_known('return-resume/19997', RESUMING.format(19997), '= 19997')
NO_TAIL_CALLS.is_known('return-resume/19998', RESUMING.format(19998), 'limit frames')

# ## Steps

STEPS.each_step('steps/calls', '''fn f(n) { print n; return g(n); }
fn g(n) { if n { return f(n - 1); } return 9; }
fn main() { return f(1); }''')
HANDLED = '''effect e/0;
fn f() { return g(do e()); }
fn g(n) { print n; return n + do e(); }
handler h() { return(x) { return p(x); } on e() k { print 2; return go(k); } }
fn p(x) { print x; return x; }
fn go(k: res h) { return resume k(4) with (); }
fn main() { return handle f() with h(); }'''
STEPS.is_known('steps/effects', HANDLED, '= 8', 2, 4, 2, 8)
STEPS.each_step('steps/effects', HANDLED)
STEPS.each_step('steps/a-fault', 'fn f(n) { print n; return f(n - 1 / n); } fn main() { return f(1); }')
STEPS.is_known('steps/without-an-end', 'fn f() { return f(); } fn main() { return f(); }', 'running', steps=100000)
STEPS.is_known('steps/without-an-end/main', 'fn main() { print 6; return main(); }', 'running', 6, steps=4)

# ## Limits

CHAIN = 'fn f(n) { if n { return f(n - 1); } return 0; }\n'
LIMITS.is_known('two-hundred-thousand', CHAIN + 'fn main() { return f(200000); }', '= 0', steps=10000000000)
LIMITS.is_known(
    'parentheses/25000', CHAIN.replace('f(n - 1);', '((f(n - 1)));') + 'fn main() { return f(25000); }', '= 0')
LIMITS.is_known('two-functions/30000', '''fn even(n) { if n == 0 { return 1; } return odd(n - 1); }
fn odd(n) { if n == 0 { return 0; } return even(n - 1); }
fn main() { return even(30000); }''', '= 1')
# All 20,000 activations are there when a chain begins in the place of the last one.
DEEP = CHAIN + 'fn deep(n) { if n { return 0 + deep(n - 1); } return f(25000); }\n'
LIMITS.is_known('a-chain-on-20000-activations', DEEP + 'fn main() { return deep(19999); }', '= 0')
LIMITS.is_known('a-chain-on-20000-activations/one-more', DEEP + 'fn main() { return 0 + deep(19999); }', 'limit frames')
# The caller is still there while arguments are evaluated.
ARGUMENT = DEEP.replace('25000', 'one()') + 'fn one() { return 1; }\n'
LIMITS.is_known('an-argument-on-19999-activations', ARGUMENT + 'fn main() { return deep(19998); }', '= 0')
LIMITS.is_known('an-argument-on-20000-activations', ARGUMENT + 'fn main() { return deep(19999); }', 'limit frames')
LIMITS.is_known('a-chain-under-a-handle', CHAIN + '''handler id() { return(x) { return x; } }
fn main() { return handle f(40000) with id(); }''', '= 0')
UNDER = CHAIN + '''handler id() { return(x) { return x; } }
fn down(n) { if n { return handle down(n - 1) with id(); } return f(25000); }
'''
LIMITS.is_known('under-1000-handles', UNDER + 'fn main() { return down(1000); }', '= 0')
LIMITS.is_known('under-1001-handles', UNDER + 'fn main() { return down(1001); }', 'limit handles')
LIMITS.is_known('handles-among-arguments', '''fn f(n) { if n { return f(handle g(n) with id()); } return 0; }
fn g(n) { return n - 1; }
handler id() { return(x) { return x; } }
fn main() { return f(21000); }''', '= 0')
LIMITS.is_known('a-chain-in-a-clause', CHAIN + '''effect e/1;
fn body() { return do e(25000); }
handler h() { return(x) { return x; } on e(n) k { return f(n); } }
fn main() { return handle body() with h(); }''', '= 0')
LIMITS.is_known('a-chain-in-a-return-clause', CHAIN + '''fn body() { return 25000; }
handler h() { return(x) { return f(x); } }
fn main() { return handle body() with h(); }''', '= 0')
# 21,000 times 2 is added, and 1 to the handler's parameter.
LIMITS.is_known('resumed-often', '''effect tick/1;
fn down(n, sum) { if n { return down(n - 1, do tick(sum)); } return sum; }
handler h(c) { return(x) { return x * 100000 + c; } on tick(v) k { return resume k(v + 2) with (c + 1); } }
fn main() { return handle down(21000, 0) with h(0); }''', '= 4200021000')
# What is called by a clause or a return clause takes its place, but the function that handles stays: so many of these,
# and a handle and its body.
AGAIN = '''effect e/1;
fn body(n) {{ {} }}
fn again(n) {{ if n {{ return handle body(n - 1) with h(); }} return 77; }}
handler h() {{ return(x) {{ return again(x); }} on e(n) k {{ return again(n); }} }}
fn main() {{ return again({}); }}'''
for name, body in [('clauses', 'return do e(n);'), ('return-clauses', 'return n;')]:
    LIMITS.is_known(f'handles-again-from-{name}/19998', AGAIN.format(body, 19998), '= 77')
    LIMITS.is_known(f'handles-again-from-{name}/19999', AGAIN.format(body, 19999), 'limit frames')

# ## Code

# The function f is 1, behind the printer.
F = 'fn f(n) { return n; } '
CALL = '09 00 42 07 12 01 42 00 0F 0B'
compiled('code/a-call', F + 'fn main() { return f(7); }', CALL)
compiled('code/parentheses', F + 'fn main() { return ((f(7))); }', CALL)
compiled('code/arguments', 'fn f(a, b) { return a; } fn main() { return f(g(3), 0 - 1); } fn g(n) { return n; }',
         '10 00 42 03 10 03 42 00 42 01 7D 12 01 42 00 0F 0B')
compiled('code/behind-it', F + 'fn main() { return f(1); print 2; return 3; }',
         '00 42 01 12 01 42 02 10 00 42 03 0F 42 00 0F 0B')
compiled('code/a-sum', F + 'fn main() { return 0 + f(1); }', '00 42 00 42 01 10 01 7C 0F 42 00 0F 0B')
compiled('code/a-sum-behind-it', F + 'fn main() { return f(1) + 0; }', '00 42 01 10 01 42 00 7C 0F 42 00 0F 0B')
compiled('code/a-negation', F + 'fn main() { return -f(1); }', '00 42 01 10 01 42 7F 7E 0F 42 00 0F 0B')
compiled('code/not', F + 'fn main() { return !f(1); }', '00 42 01 10 01 50 AD 0F 42 00 0F 0B')
compiled('code/do', 'effect e/1; fn main() { return do e(1); }', '00 42 01 E2 00 0F 42 00 0F 0B')
compiled('code/a-statement-and-a-let', F + 'fn main() { f(1); let a = f(2); return a; }',
         '01 01 7E 42 01 10 01 1A 42 02 10 01 21 00 20 00 0F 42 00 0F 0B')
compiled('code/if', F + 'fn main() { let a = 1; if a { return f(a); } else { return f(2); } }',
         '01 01 7E 42 01 21 00 20 00 50 04 40 42 02 12 01 05 20 00 12 01 0B 42 00 0F 0B')
compiled('code/while', F + 'fn main() { let a = 1; while a { return f(a); } }',
         '01 01 7E 42 01 21 00 02 40 03 40 20 00 50 0D 01 20 00 12 01 0C 00 0B 0B 42 00 0F 0B')
# In a handler the locals are what is handled, x and k; the types 7 and 8 are those of the handler and of its block.
compiled('code/clauses', 'effect e/0; ' + F + '''handler h() { return(x) { return f(x); } on e() k { return f(5); } }
fn main() { }''', '03 7E 02 08 20 00 E3 03 01 00 00 00 21 01 20 01 12 01 42 00 0F 0B 21 02 42 05 12 01 42 00 0F 0B 0B')
compiled('code/a-resumption', '''effect e/0;
fn go(k: res h, n) { return go(k, n); }
handler h() { return(x) { return x; } on e() k { return go((k), 2); } }
fn main() { }''', '00 20 00 20 01 12 01 42 00 0F 0B', '21 02 20 02 42 02 12 01 42 00 0F 0B 0B')
MANY = ''.join(f'fn f{number}() {{ return {number}; }}\n' for number in range(130))
compiled('code/the-function-127', MANY + 'fn main() { return f126(); }', '07 00 12 7F 42 00 0F 0B')
compiled('code/the-function-128', MANY + 'fn main() { return f127(); }', '08 00 12 80 01 42 00 0F 0B')
