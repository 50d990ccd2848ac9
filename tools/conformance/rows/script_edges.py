"""Scripts at the edges of what the language says. What each is to come to was worked out by hand from what it says, and
the second readers are to come to the same. Scripts at the edge of their size stand in `script_sizes`."""

from rows.script_run_samples import ScriptRunSection, data_of
from rows.script_samples import ScriptRow
from script_reader import answer


class EdgeSection(ScriptRunSection):
    """Rows of scripts that are run, and of scripts that are refused where they are checked."""

    def is_refused(self, name, said, text):
        """A script that is refused so."""
        data = data_of(text)
        if answer(data) != said:
            raise ValueError(f'{name}: {answer(data)} and not {said}')
        self.rows.append(ScriptRow(name, data, said))


TEXTS = EdgeSection('texts')
NAMES = EdgeSection('names')
ORDER = EdgeSection('order')
HANDLERS = EdgeSection('handlers')
LIMITS = EdgeSection('limits')

# Tokens, operators and statements. A comment goes up to the line feed or the end, over a carriage return and any byte;
# elsewhere a carriage return separates.
TEXTS.is_known(
    'comments', b'fn main() { # \xff\x00 & | @ \r return 2;\n\treturn\r1; } # no line feed behind this', '= 1')
TEXTS.is_known('keywords-that-begin-names', '''
fn fnord(lets, iffy, returning) {
let doing = lets; let handles = iffy; let resumed = returning; let ress = 1; let on_ = 2; let _ = 3; let If = 4;
return doing + handles + resumed + ress + on_ + _ + If;
}
fn main() { return fnord(10, 20, 30); }''', '= 70')
TEXTS.is_refused('the-least-number-is-no-literal', 'lex 20', 'fn main() { return -9223372036854775808; }')
TEXTS.is_refused('a-letter-behind-digits', 'lex 19', 'fn main() { return 0x10; }')
# What wraps, zeros in front, and the least number.
TEXTS.is_known('numbers', '''
fn main() {
print 9223372036854775807 + 1;
print -9223372036854775807 - 1;
print 00000000000000000000000000000007;
print -(0 - 9223372036854775807 - 1);
print (0 - 9223372036854775807 - 1) * -1;
return (0 - 9223372036854775807 - 1) % -1;
}''', '= 0', -2 ** 63, -2 ** 63, 7, -2 ** 63, -2 ** 63)
TEXTS.is_known('levels-of-operators', '''
fn main() {
print 2 + 3 * 4 - 10 / 3 % 2;
print 10 - 3 - 2;
print 100 / 7 / 2;
print (1 < 2) == 1;
print 1 || 0 && 0;
print !0 + 1;
print -2 * 3;
print !5 == 0;
print 2 - -2;
print 7 % -3;
print -7 % 3;
print -7 / 2;
return 1 + 1 < 3 && 2 * 2 >= 4;
}''', '= 1', 13, 5, 7, 1, 1, 2, -6, 1, 4, 1, -1, -3)
TEXTS.is_refused('comparisons-do-not-chain', 'parse 9', 'fn main() { return 1 < 2 < 3; }')
TEXTS.is_refused('two-prefixes', 'parse 7', 'fn main() { return !!1; }')
# The braces count too: two of them are around the parentheses.
TEXTS.is_known('nesting-of-64-in-a-handler', f'''
handler h() {{ return(x) {{ return {"(" * 62}x{")" * 62}; }} }}
fn main() {{ return handle f() with h(); }}
fn f() {{ return 6; }}''', '= 6')
TEXTS.is_refused('nesting-of-65-in-a-handler', 'deep', f'''
handler h() {{ return(x) {{ return {"(" * 63}x{")" * 63}; }} }}
fn main() {{ return 0; }}''')
TEXTS.is_refused('a-wrong-token-before-nesting-of-65', 'parse 6', f'fn main() {{ 1 1 {"(" * 70}')
TEXTS.is_known('behind-return-and-fail', '''
fn f() { return 4; fail; print 2; while 1 { return 3; } }
fn main() { print f(); fail; let x = 1; while x { x = x - 1; } return x; }''', 'fault failed', 4)
TEXTS.is_known('a-loop-on-a-negative-number', '''
fn f() { 5; }
fn main() { let i = 0 - 3; while i { print i; i = i + 1; } return f() + i; }''', '= 0', -3, -2, -1)

# Names, and where those of resumptions may stand.
NAMES.is_known('a-value-and-a-function', '''
fn g(x) { return x + 1; }
fn main() { let g = 5; return g(g) * g; }''', '= 30')
NAMES.is_known('values-and-an-effect-and-a-handler', '''
effect k/1;
handler h(k) { return(h) { return h + k; } on k(x) r { return resume r(x * 2) with (k + 1); } }
fn body() { return do k(4); }
fn main() { return handle body() with h(10); }''', '= 19')
NAMES.is_refused('bound-in-both-branches', 'rule 0 6', '''
fn main() { if 1 { let x = 1; } else { let x = 2; } return 0; }''')
NAMES.is_refused('a-let-of-itself', 'rule 0 10', 'fn main() { let x = x; return x; }')
# Parentheses leave nothing, so that a name within is a bare name.
NAMES.is_known('a-resumption-in-parentheses', '''
effect e/0;
fn go(a, k: res h, b) { return resume k(a - b) with (a, b); }
handler h(p, q) { return(x) { return x * 100 + p * 10 + q; } on e() k { return go(9, ((k)), 4); } }
fn body() { return do e(); }
fn main() { return handle body() with h(1, 2); }''', '= 594')
NAMES.is_refused('a-resumption-for-a-number', 'rule 2 16', '''
effect e/0;
fn f(x) { return x; }
handler h() { return(x) { return x; } on e() k { return f(k); } }
fn main() { return 0; }''')
NAMES.is_refused('a-resumption-as-an-argument-of-do', 'rule 1 11', '''
effect e/1;
handler h() { return(x) { return x; } on e(a) k { return do e(k); } }
fn main() { return 0; }''')
# Such a handler can't be installed, since each resumption of it is made under one.
NAMES.is_known('a-handler-with-a-parameter-of-its-own', '''
effect e/0;
fn body() { return do e() + do e(); }
fn use(k: res h, j: res h) { let a = resume k(1) with (k); return a; }
handler h(old: res h) { return(x) { return x; } on e() k { return use(old, k); } }
fn main() { return 0; }''', '= 0')

# What is evaluated first, and which fault is told.
ORDER.is_known('both-operands-before-a-fault', '''
fn f(x) { print x; return 5; }
fn g(x) { print x; return x; }
fn main() { return f(1) / g(0); }''', 'fault divzero', 1, 0)
ORDER.is_known('arguments-before-an-unhandled-effect', '''
effect e/2;
fn p(x) { print x; return x; }
fn main() { return do e(p(1), p(2)); }''', 'fault unhandled e', 1, 2)
ORDER.is_known('arguments-then-parameters-then-the-body', '''
fn p(x) { print x; return x; }
fn f(a, b) { print 10 + a; return b; }
handler h(c) { return(x) { return x * 100 + c; } }
fn main() { return handle f(p(1), p(2)) with h(p(3)); }''', '= 203', 1, 2, 3, 11)
ORDER.is_known('the-value-and-parameters-of-a-resumption-that-is-reused', '''
effect e/0;
fn p(x) { print x; return x; }
fn body() { return do e(); }
handler h(s) {
return(x) { return x; }
on e() k { let a = resume k(1) with (s); return resume k(p(7)) with (p(8)); }
}
fn main() { return handle body() with h(0); }''', 'fault reused', 7, 8)
ORDER.is_known('a-fault-of-the-value-of-a-resumption-that-is-reused', '''
effect e/0;
fn body() { return do e(); }
handler h(s) {
return(x) { return x; }
on e() k { let a = resume k(1) with (s); return resume k(1 / s) with (s); }
}
fn main() { return handle body() with h(0); }''', 'fault divzero')
ORDER.is_known('where-the-left-side-decides', '''
fn p(x) { print x; return x; }
fn main() {
print p(0) && p(1);
print p(2) || p(3);
print p(4) && p(0) || p(5);
print 0 && 1 / 0;
print 3 || 1 / 0;
return 0 || 7 && 3;
}''', '= 1', 0, 0, 2, 1, 4, 0, 5, 1, 0, 1)

# What stands under a handler, and what a resumption brings back.
HANDLERS.is_known('a-return-clause-is-not-under-its-own', '''
effect e/0;
fn body() { return 1; }
handler h() { return(x) { return do e(); } on e() k { return resume k(5) with (); } }
fn main() { return handle body() with h(); }''', 'fault unhandled e')
HANDLERS.is_known('a-return-clause-is-under-the-outer-one', '''
effect e/0;
fn body() { return 1; }
fn inner() { return handle body() with h(); }
handler h() { return(x) { return x + do e(); } on e() k { return 100; } }
handler o(v) { return(x) { return x * 2; } on e() k { return resume k(v) with (v + 1); } }
fn main() { return handle inner() with o(20); }''', '= 42')
HANDLERS.is_known('a-clause-is-under-the-outer-one', '''
effect a/0; effect b/0;
fn body() { return do a(); }
fn mid() { return handle body() with ha(); }
handler ha() { return(x) { return x + 1; } on a() k { return resume k(do b()) with (); } on b() k { return 1000; } }
handler hb() { return(x) { return x * 10; } on b() k { return resume k(3) with (); } }
fn main() { return handle mid() with hb(); }''', '= 40')
HANDLERS.is_known('an-inner-one-comes-back-with-its-parameter', '''
effect get/0; effect ask/0;
fn work() { let a = do get(); let b = do ask(); let c = do get(); return a * 100 + b * 10 + c; }
handler st(n) { return(x) { return x; } on get() k { return resume k(n) with (n + 1); } }
fn mid() { return handle work() with st(1); }
handler an() { return(x) { return x; } on ask() k { return resume k(7) with (); } }
fn main() { return handle mid() with an(); }''', '= 172')
HANDLERS.is_known('clauses-end-from-the-inside-outwards', '''
effect tick/1;
fn body() { do tick(1); do tick(2); do tick(3); return 10; }
handler h() { return(x) { print x; return x; } on tick(w) k { let r = resume k(0) with (); print w; return r + w; } }
fn main() { return handle body() with h(); }''', '= 16', 10, 3, 2, 1)
# Neither the rest of the body nor the return clause runs.
HANDLERS.is_known('a-resumption-that-is-dropped', '''
effect raise/1;
fn body() { print 1; do raise(42); print 2; return 3; }
handler try() { return(x) { return x; } on raise(v) k { return 0 - v; } }
fn main() { let a = handle body() with try(); print a; return a + 1; }''', '= -41', 1, -42)
HANDLERS.is_known('a-resume-under-another-one', '''
effect e/0; effect f/0;
fn body() { return do e() + do f(); }
fn go(k: res h, v) { return resume k(v) with (); }
handler h() { return(x) { return x + 1; } on e() k { return handle go(k, 5) with g(); } }
handler g() { return(x) { return x * 10; } on f() j { return resume j(6) with (); } }
fn main() { return handle body() with h(); }''', '= 120')
# What is told is the effect and not the tag of a clause.
HANDLERS.is_known('one-without-a-clause-for-the-effect', '''
effect a/0; effect b/0; effect c/0;
fn body() { return do b(); }
handler h() { return(x) { return x; } on a() k { return 1; } on c() k { return 2; } }
fn main() { return handle body() with h(); }''', 'fault unhandled b')
HANDLERS.is_known('a-resumption-as-a-parameter', '''
effect e/0; effect stop/1;
fn body() { return do e(); }
handler h() { return(x) { return x + 1; } on e() k { return handle work() with g(k); } }
fn work() { do stop(5); return 0; }
handler g(k: res h) { return(x) { return resume k(x) with (); } on stop(v) j { return resume k(v) with () * 2; } }
fn main() { return handle body() with h(); }''', '= 12')
HANDLERS.is_known('a-resumption-through-parameters-of-last-resumes', '''
effect a/0; effect b/0;
fn body() { return do a(); }
fn ticks(n) { let i = 0; while i < n { do b(); i = i + 1; } return i; }
handler ha() { return(x) { return x + 1; } on a() k { return handle ticks(3) with hb(k); } }
handler hb(k: res ha) { return(x) { return resume k(x) with (); } on b() j { print 5; return resume j(0) with (k); } }
fn main() { return handle body() with ha(); }''', '= 4', 5, 5, 5)
# The inner one has 1, then 1 + 5, then 6 + 6.
HANDLERS.is_known('a-clause-asks-the-outer-one', '''
effect ask/0;
fn body() { return do ask() * 10 + do ask(); }
fn mid() { return handle body() with h(1); }
handler h(s) { return(x) { return x + s * 1000; } on ask() k { return resume k(s) with (s + do ask()); } }
handler o(s) { return(x) { return x; } on ask() k { return resume k(s) with (s + 1); } }
fn main() { return handle mid() with o(5); }''', '= 12016')


def going(count):
    """A clause whose resumption was used, and so many activations and one more around a second use."""
    return f'''
effect ask/0;
fn one() {{ return do ask(); }}
fn go(k: res h, n) {{ if n {{ return 0 + go(k, n - 1); }} return resume k(n) with (n); }}
handler h(s) {{
return(x) {{ return x + s; }}
on ask() k {{ let a = resume k(s) with (s); return 0 + go(k, {count}); }}
}}
fn main() {{ return handle one() with h(10); }}'''


def ticking(count, clause):
    """A handler with such a clause, whose effect is performed so often."""
    return f'''
effect tick/0;
fn body() {{ let i = 0; while i < {count} {{ do tick(); i = i + 1; }} return i; }}
handler h(s) {{
return(x) {{ return x; }}
on tick() k {{ {clause} }}
}}
fn main() {{ return handle body() with h(0); }}'''


def dropping(count):
    """So many resumptions that are dropped."""
    return f'''
effect e/0;
fn one() {{ return do e(); }}
handler h() {{ return(x) {{ return x; }} on e() k {{ return 1; }} }}
fn main() {{ let i = 0; while i < {count} {{ i = i + handle one() with h(); }} return i; }}'''


# Limits. Main, the clause and 19,998 activations of a function are 20,000; with one more the limit is told and not the
# fault, though both are there.
LIMITS.is_known('a-fault-among-20-000-activations', going(19997), 'fault reused')
LIMITS.is_known('one-activation-more', going(19998), 'limit frames')
# A last resume leaves nothing behind, in blocks too.
LIMITS.is_known('last-resumes-in-blocks', ticking(
    25000, 'while 1 { if s { return resume k(0) with (0); } else { return resume k(1) with (s + 1); } }'), '= 25000')
# Main, the clauses, the body and one handle are 20,000.
LIMITS.is_known('resumes-whose-value-is-bound', ticking(
    19997, 'let r = resume k(0) with (s); return r;'), '= 19997')
LIMITS.is_known('resumes-whose-value-is-bound/one-more', ticking(
    19998, 'let r = resume k(0) with (s); return r;'), 'limit frames')
LIMITS.is_known('resumes-in-a-sum', ticking(19998, 'return 0 + resume k(0) with (s);'), 'limit frames')
# Main, 19,999 activations of a function, and the handle.
LIMITS.is_known('calls-under-a-handle', '''
fn f(n) { if n { return 0 + f(n - 1); } return 0; }
handler id() { return(x) { return x; } }
fn main() { return handle f(19998) with id(); }''', 'limit frames')
LIMITS.is_known('dropped-resumptions', dropping(65536), '= 65536')
LIMITS.is_known('dropped-resumptions/one-more', dropping(65537), 'limit conts')
