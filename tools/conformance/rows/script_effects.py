"""Runs of scripts: effects, handlers, and where resumptions go."""

from rows.script_run_samples import ScriptRunSection
from rows.script_runs import TWICE, asking

DOWN = '''fn down(k: res h, n) {
if n { return 1 + down(k, n - 1); }
return resume k(3) with (2);
}
'''

EFFECTS = ScriptRunSection('effects')
RESUMPTIONS = ScriptRunSection('resumptions')
HANDLES = ScriptRunSection('handles')


def names(front, count):
    """So many names with commas."""
    return ', '.join(f'{front}{number}' for number in range(count))


# Effects and handlers.
EFFECTS.whole('unhandled', 'effect ask/0; fn main() { print 5; return do ask(); }', 'fault unhandled ask', 5)
EFFECTS.whole('unhandled/the-second-effect', '''effect ask/0;
effect tell/2;
fn body() { print do ask(); return do tell(1, 2); }
handler h() { return(x) { return x; } on ask() k { return resume k(8) with (); } }
fn main() { return handle body() with h(); }''', 'fault unhandled tell', 8)
EFFECTS.whole('unhandled/in-a-clause', asking('print s; return do ask();'), 'fault unhandled ask', 10)
EFFECTS.whole('unhandled/behind-a-handle', asking(handled='one()').replace(
    'fn main() { return', 'fn main() { print do_it(); return do ask() +') + '\nfn do_it() { return 3; }',
    'fault unhandled ask', 3)
for count in range(9):
    arguments = ', '.join(f'{number} + t({number * number})' for number in range(count))
    total = ' + '.join(f'{10 ** number} * a{number}' for number in range(count)) or '4'
    EFFECTS.whole(f'arguments/{count}', f'''effect e/{count};
fn t(n) {{ print n; return 1; }}
fn body() {{ return do e({arguments}) - 1; }}
handler h() {{ return(x) {{ return x; }} on e({names('a', count)}) k {{ return resume k({total}) with (); }} }}
fn main() {{ return handle body() with h(); }}''')
    total = ' + '.join(f'{10 ** number} * p{number}' for number in range(count)) or '4'
    turned = ', '.join(f'p{(number + 1) % count} + 1' for number in range(count))
    EFFECTS.whole(f'parameters/{count}', f'''effect e/1;
fn body() {{ print do e(1); print do e(2); return do e(3); }}
handler h({names('p', count)}) {{
return(x) {{ print x; return {total}; }}
on e(w) k {{ print w; return resume k(w + {total}) with ({turned}); }}
}}
fn main() {{ return handle body() with h({', '.join(map(str, range(count)))}); }}''')
EFFECTS.whole('sixteen-clauses', ''.join(f'effect e{number}/{number % 3};\n' for number in range(16)) + f'''
handler h(s) {{
return(x) {{ return x + s; }}
{"".join(f"on e{number}({names('a', number % 3)}) k {{ return resume k({number}) with (s * 2 + {number}); }}" + chr(10)
         for number in range(15, -1, -1))}}}
fn body() {{
let t = 0;
{"".join(f"t = t * 3 + do e{number}({', '.join('1' * (number % 3))}); print t;" + chr(10) for number in range(16))}
return t;
}}
fn main() {{ return handle body() with h(1); }}''')
STATE = '''effect get/0;
effect put/1;
handler state(s) {
return(x) { print s; return x; }
on get() k { return resume k(s) with (s); }
on put(v) k { return resume k(s) with (v); }
}
'''
EFFECTS.whole('state', STATE + '''fn count(n) { while do get() < n { do put(do get() + 1); } return do get() * 10; }
fn main() { return handle count(4) with state(1); }''', '= 40', 4)
EFFECTS.whole('state/that-runs-out', STATE + '''fn down() { print 12 / do get(); do put(do get() - 1); return down(); }
fn main() { return handle down() with state(3); }''', 'fault divzero', 4, 6, 12)
EFFECTS.whole('exceptions', '''effect raise/1;
fn safe(a, b) { if b == 0 { do raise(a); } return a / b; }
fn all() { print safe(9, 3); print safe(8, 2); print safe(7, 0); return safe(6, 1); }
handler caught(d) { return(x) { return x; } on raise(v) k { print d; return v * 100; } }
fn main() { return handle all() with caught(5); }''', '= 700', 3, 4, 5)
EFFECTS.whole('the-end-of-a-clause-is-0', asking('print s;'), '= 0', 10)
EFFECTS.whole('a-return-clause-without-a-return', asking().replace('return x + s;', 'print x;'), '= 0', 21, 7)

# Where resumptions go.
RESUMPTIONS.whole('not-last', asking('return 100 + resume k(s) with (s + 1);'), '= 219', 21)
RESUMPTIONS.whole('used-twice', asking(TWICE, handled='one()'), 'fault reused')
RESUMPTIONS.whole('used-twice/last-and-not-last', asking(
    'print resume k(s) with (s); print 4; return 1 + resume k(s) with (s);', handled='one()'), 'fault reused', 20, 4)
RESUMPTIONS.whole('used-twice/through-a-function', asking(
    'print go(k, 1); return go(k, 2);', handled='one()',
    more='fn go(k: res h, v) { return resume k(v) with (v); }\n'), 'fault reused', 2)
RESUMPTIONS.whole('used-within-its-own-arguments', asking(
    'return resume k(resume k(1) with (2)) with (3);', handled='one()'), 'fault reused')
RESUMPTIONS.whole('used-within-its-handlers-parameters', asking(
    'return 0 + resume k(1) with (resume k(2) with (3));', handled='one()'), 'fault reused')
RESUMPTIONS.whole('in-a-helper', asking(
    'return go(k, 5);', handled='one()', more='fn go(k: res h, v) { return resume k(v) with (v); }\n'), '= 10')
RESUMPTIONS.whole('passed-down', asking(
    'return down(k, 4);', more=DOWN), '= 17', 6)
RESUMPTIONS.whole('in-nested-ifs', asking('''
if s > 10 { if s > 11 { return 0; } else { return resume k(s) with (s + 1); } }
if s == 10 { while 1 { if s { return resume k(s * 2) with (s + 1); } } }'''), '= 19', 31)
RESUMPTIONS.whole('a-name-of-another-handler-that-is-last', '''effect a/0;
effect b/0;
fn two() { return do b() + 10; }
fn one() { return do a() + 1; }
handler outer() { return(x) { return x; } on b() k { return handle one() with inner(k, 2); } }
handler inner(saved: res outer, n) { return(x) { return x; } on a() k { return resume saved(n) with (); } }
fn main() { return handle two() with outer(); }''', '= 12')
RESUMPTIONS.whole('kept-in-a-parameter', '''effect ask/0;
effect other/0;
fn one() { return do ask() + 1; }
fn two() { return do other() + 10; }
handler outer() { return(x) { return x; } on other() k { return handle one() with inner(k, 2); } }
handler inner(saved: res outer, n) {
return(x) { return resume saved(x * n) with (); }
on ask() k { return resume k(5) with (saved, n + 1); }
}
fn main() { return handle two() with outer(); }''', '= 28')
# A handler that keeps one of its own, so that its return clause resumes that last.
RESUMPTIONS.whole('own-in-a-return-clause', '''effect go/0;
effect pair/0;
fn first() { return do go() + 1000; }
fn second() { print 2; return 7; }
fn nested(k: res keeps, n) { return handle second() with keeps2(k, n); }
handler keeps(n) { return(x) { print n; return x; } on go() k { return nested(k, 3); } }
handler keeps2(k: res keeps, n) { return(x) { return resume k(x * n) with (n); } }
fn main() { return handle first() with keeps(1); }''', '= 1021', 2, 3)
ROUND_ROBIN = '''effect yield/0;
effect fork/0;
fn task(id, n) { while n { print id * 10 + n; do yield(); n = n - 1; } return id; }
fn start() { do fork(); return task(1, 3); }
fn other(k: res sched) { return handle task(2, 2) with runs(k); }
handler sched() {
return(x) { return x; }
on fork() k { return other(k); }
on yield() k { return 100 + resume k(0) with (); }
}
handler runs(k: res sched) {
return(x) { return x + resume k(0) with (); }
on yield() j { return 1000 + resume j(0) with (k); }
}
fn main() { return handle start() with sched(); }'''
RESUMPTIONS.whole('round-robin', ROUND_ROBIN)
# The word `spawn` is no name any more.
RESUMPTIONS.is_known('round-robin/of-the-name-spawn', ROUND_ROBIN.replace('fork', 'spawn'), 'parse 6')
RESUMPTIONS.whole('alternating', '''effect give/1;
fn left() { do give(1); do give(2); do give(3); return 4; }
fn right() { do give(10); do give(20); return 30; }
fn begin(a: res zip) { return handle right() with zipped(a); }
handler zip() { return(x) { return x; } on give(v) k { print v; return begin(k); } }
handler zipped(other: res zip) {
return(x) { print x; return resume other(0) with (); }
on give(v) k { print v; let r = resume k(0) with (other); return r + v; }
}
fn main() { return handle left() with zip(); }''')
RESUMPTIONS.whole('dropped', asking('resume k(s) with (0); return s;'), '= 10', 10)
RESUMPTIONS.whole('a-value-that-is-a-fault', asking('return resume k(1 / 0) with (s);'), 'fault divzero')
RESUMPTIONS.whole('never', asking('return s * 3;'), '= 30')
RESUMPTIONS.whole('deep-recursion-through-a-helper', asking(
    'return down(k, 300);', more=DOWN), '= 609', 6)

# Handles in one another.
HANDLES.whole('two', '''effect a/0;
effect b/0;
fn inner() { return do a() * 10 + do b(); }
handler hb(v) { return(x) { return x; } on b() k { return resume k(v) with (v); } }
fn mid() { return handle inner() with hb(3); }
handler ha(v) { return(x) { return x; } on a() k { return resume k(v) with (v); } }
fn main() { return handle mid() with ha(4); }''', '= 43')
HANDLES.whole('an-effect-in-a-return-clause', '''effect ask/0;
effect tell/1;
fn body() { return do ask(); }
fn handled() { return handle body() with inner(); }
handler inner() { return(x) { return do tell(x) + 1; } on ask() k { do tell(7); return resume k(do tell(8)) with (); } }
handler outer() { return(x) { return x; } on tell(v) k { print v; return resume k(v * 2) with (); } }
fn main() { return handle handled() with outer(); }''', '= 33', 7, 8, 16)
HANDLES.whole('the-innermost-answers', '''effect a/0;
fn inner() { return do a(); }
fn mid() { return (handle inner() with h(3)) * 10 + do a(); }
handler h(v) { return(x) { return x; } on a() k { return resume k(v) with (v); } }
fn main() { return handle mid() with h(4); }''', '= 34')
HANDLES.whole('a-clause-stands-outside-of-its-handle', '''effect a/0;
fn inner() { return do a() + 1; }
fn mid() { return handle inner() with h(3) ; }
handler h(v) { return(x) { return x; } on a() k { return resume k(v + do a()) with (v); } }
handler top() { return(x) { return x * 2; } on a() k { print 6; return resume k(100) with (); } }
fn main() { return handle mid() with top(); }''', '= 208', 6)
HANDLES.whole('in-arguments', '''fn f(x, y) { print x; return x * 2 + y; }
handler h(s) { return(x) { return x + s; } }
fn main() {
return handle f(1, handle f(1, 2) with h(3)) with h(handle f(handle f(4, 5) with h(6), 7) with h(8));
}''', '= 62', 1, 4, 19, 1)
HANDLES.whole('effects-in-the-arguments-of-a-handle', '''effect ask/0;
fn add(a, b) { return a + b; }
fn body() { return handle add(do ask(), do ask() * 10) with plus(do ask() * 100); }
handler plus(n) { return(x) { return x + n; } }
handler h(s) { return(x) { return x; } on ask() k { print s; return resume k(s) with (s + 1); } }
fn main() { return handle body() with h(1); }''', '= 321', 1, 2, 3)
HANDLES.whole('captured-handles-stand-again', '''effect out/1;
effect in/0;
fn deep() { do out(1); let x = do in(); do out(x); return do in() + x; }
fn wrapped() { return handle deep() with middle(20); }
handler middle(v) { return(x) { print v; return x; } on in() k { return resume k(v) with (v + 1); } }
handler top(n) { return(x) { return x * 1000 + n; } on out(w) k { print w; return resume k(0) with (n + w); } }
fn main() { return handle wrapped() with top(0); }''', '= 41021', 1, 20, 22)
HANDLES.whole('out-of-many-handles', '''effect stop/1;
fn down(n) { if n { return handle down(n - 1) with id(); } do stop(77); return 1; }
handler id() { return(x) { print x; return x; } }
handler h() { return(x) { return x; } on stop(v) k { return v; } }
fn main() { return handle down(50) with h(); }''', '= 77')
HANDLES.whole('through-many-handles-and-back', '''effect stop/1;
fn down(n) { if n { return handle down(n - 1) with id(n); } return do stop(7); }
handler id(n) { return(x) { return x + n; } }
handler h() { return(x) { return x; } on stop(v) k { return 1 + resume k(v * 1000) with (); } }
fn main() { return handle down(30) with h(); }''', '= 7466')
HANDLES.whole('a-handle-in-each-turn', asking().replace('fn main() {', '''fn main() {
let i = 0; let t = 0;
while i < 5 { t = t + handle one() with h(i); i = i + 1; }
print t;''').replace('ask/0;\nfn body', 'ask/0;\nfn unused() { }\nfn body'), '= 19', 25, 21)
