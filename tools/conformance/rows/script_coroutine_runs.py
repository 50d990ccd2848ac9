"""Runs of scripts with coroutines. What a run is to come to where this is told was worked out by hand from what the
language says, and the second readers are to come to the same."""

from rows.script_modules import compiled_row
from rows.script_run_samples import ScriptRunSection

RUNS = ScriptRunSection('runs')
GROUPS = ScriptRunSection('groups')
HANDLERS = ScriptRunSection('handlers')
FAULTS = ScriptRunSection('faults')
STEPS = ScriptRunSection('steps')
LIMITS = ScriptRunSection('limits')
MODULES = ScriptRunSection('modules')


def compiled(name, text, *codes):
    """How a script is compiled, and codes that its module has somewhere."""
    MODULES.rows.append(compiled_row(name, text, *codes))


def known(section, name, text, end, *printed):
    """The usual rows of a run."""
    section.whole(name, text, end, *printed)


# ## Two coroutines, and more

PING = '''fn ping(x) {
spawn t = pong;
switch a, u = t(x + 1); print a;
switch b, w = u(a + 1); print b;
return b;
}
'''
PONG = '''fn pong(y, p: coro) {
print y;
switch c, q = p(y + 1); print c;
switch d, r = q(c + 1); return 0;
}
'''
BOTH = PING + PONG + 'fn main() { return group ping(1); }'
known(RUNS, 'ping-and-pong', BOTH, '= 5', 2, 3, 4, 5)
known(RUNS, 'ping-and-pong/the-first-again', BOTH.replace('= u(a + 1)', '= t(a + 1)'), 'fault reused', 2, 3)
known(RUNS, 'no-group', PONG + 'fn main() { spawn t = pong; switch a, u = t(1); return 0; }', 'fault unhandled group')
RUNS.is_known('a-spawn-of-main', PONG + 'fn main() { spawn t = main; switch a, u = t(1); return 0; }', 'rule 1 22')
known(RUNS, 'an-echo', '''fn echo(x, back: coro) { return echoes(x, back); }
fn echoes(x, back: coro) { switch y, again = back(x * 10); return echoes(y, again); }
fn body(n) {
spawn e = echo;
switch a, f = e(n); print a;
switch b, g = f(n + 1); print b;
switch c, h = g(n + 2); return a + b + c;
}
fn main() { return group body(3); }''', '= 120', 30, 40)
# Each hands the number on, one more, to the next; the last one to the first.
known(RUNS, 'a-ring-of-three', '''fn first(n) {
spawn s = second;
switch a, last = s(n + 1); print a;
switch b, end = last(a + 1); print b;
return b + 1000;
}
fn second(x, back: coro) { print x; spawn t = third; return between(x, back, t); }
fn between(x, back: coro, next: coro) { switch y, who = next(x + 1); print y; return pass(y, back, who); }
fn pass(y, back: coro, who: coro) { switch z, other = back(y + 1); print z; return 7; }
fn third(x, back: coro) { print x; switch y, other = back(x + 1); print y; return 8; }
fn main() { return group first(1); }''', '= 7', 2, 3, 4, 5, 6)
# What goes on is what returns; what waits is left.
known(RUNS, 'one-returns-while-the-other-waits', '''fn body(n) {
spawn t = other; switch a, u = t(n); print 9; return a;
}
fn other(x, back: coro) { print x; return x * 2; }
fn main() { print group body(4); return group body(5); }''', '= 10', 4, 8, 5)
known(RUNS, 'one-that-is-never-switched-to', '''fn body(n) {
spawn t = other; spawn u = other; switch a, w = u(n); return 3;
}
fn other(x, back: coro) { print x; switch a, u = back(0); fail; }
fn main() { return group body(4) + 1; }''', '= 4', 4)
known(RUNS, 'none-is-switched-to', '''fn body(n) { spawn t = body2; return n; }
fn body2(x, back: coro) { fail; }
fn main() { spawn t = body2; return group body(4); }''', '= 4')
known(RUNS, 'a-spawn-in-a-loop', '''fn body(n) {
let sum = 0;
while n { spawn t = add; switch s, done = t(n); sum = sum + s; n = n - 1; }
return sum;
}
fn add(x, back: coro) { print x; switch a, b = back(x * x); return 0; }
fn main() { return group body(4); }''', '= 30', 4, 3, 2, 1)
# The names are bound anew in each turn: two coroutines alternate.
known(RUNS, 'alternating-in-loops', '''fn body(n) { spawn t = other; return turns(n, t); }
fn turns(n, t: coro) { if n { switch a, u = t(n); print a; return turns(n - 1, u); } return 77; }
fn other(x, back: coro) { print x; switch y, again = back(x + 100); return other(y, again); }
fn main() { return group body(3); }''', '= 77', 3, 103, 2, 102, 1, 101)
known(RUNS, 'a-generator', '''fn numbers(x, back: coro) { return next(x, back); }
fn next(x, back: coro) { switch more, again = back(x * x); if more { return next(x + 1, again); } return 1000; }
fn body(n) {
spawn g = numbers;
switch a, g2 = g(n); print a;
switch b, g3 = g2(1); print b;
switch c, g4 = g3(1); print c;
switch d, g5 = g4(0); fail;
}
fn main() { return group body(3); }''', '= 1000', 9, 16, 25)
known(RUNS, 'the-least-number-is-handed-over', '''fn body(n) {
spawn t = f; switch a, u = t(n - 9223372036854775807 - 1); return a;
}
fn f(x, p: coro) { print x; switch y, q = p(0 - 1); return 5; }
fn main() { return group body(0); }''', '= -1', -9223372036854775808)
# The caller's frames are in the coroutine too.
known(RUNS, 'a-switch-below-calls', '''fn body(n) { return 1 + deep(n); }
fn deep(n) { if n { return 10 * deep(n - 1); } spawn t = f; switch a, u = t(5); return a; }
fn f(x, p: coro) { print x; return back(x + 1, p) * 1000; }
fn back(x, p: coro) { switch y, q = p(x); print 99; return y; }
fn main() { return group body(2); }''', '= 601', 5)
known(RUNS, 'a-switch-in-an-argument', '''fn two(a, b) { return a * 100 + b; }
fn body(n) { spawn t = f; return two(asks(n, t), 7); }
fn asks(n, t: coro) { switch a, u = t(n); return a; }
fn f(x, p: coro) { switch y, q = p(x + 1); return 0; }
fn main() { return group body(2); }''', '= 307')
known(RUNS, 'a-fresh-one-by-two-names', '''fn body(n) { spawn t = f; return both(t, t, n); }
fn both(a: coro, b: coro, n) { switch x, u = a(n); print x; switch y, w = b(n); return 0; }
fn f(x, p: coro) { switch y, q = p(x + 1); return 0; }
fn main() { return group body(2); }''', 'fault reused', 3)
known(RUNS, 'one-that-waits-by-two-names', '''fn body(n) { spawn t = f; switch x, u = t(n); return both(u, u, x); }
fn both(a: coro, b: coro, n) { switch x, u = a(n); print x; switch y, w = b(n); return 0; }
fn f(x, p: coro) { switch y, q = p(x + 1); switch z, r = q(y + 1); return 0; }
fn main() { return group body(2); }''', 'fault reused', 4)
known(RUNS, 'a-handed-on-coroutine', '''fn body(n) { spawn a = f; spawn b = g; return start(n, a, b); }
fn start(n, a: coro, b: coro) { switch x, u = a(n); print x; switch y, w = b(x); return y; }
fn f(x, p: coro) { switch y, q = p(x + 1); print y; return 1; }
fn g(x, p: coro) { switch y, q = p(x * 2); return 2; }
fn main() { return group body(20); }''', '= 42', 21)
known(RUNS, 'names-of-functions', '''fn f(f, c: coro) { switch group_, g = c(f + 1); return group_; }
fn g(g) { spawn f = f; switch c, switch_ = f(g); return c; }
fn main() { return group g(1); }''', '= 2')

# ## Groups

RETURNS = 'fn id(n) { return n; }\n'
known(GROUPS, 'returns-at-once', RETURNS + 'fn main() { return group id(6); }', '= 6')
known(GROUPS, 'an-empty-body', 'fn none(n) { } fn main() { return 5 + group none(6); }', '= 5')
known(GROUPS, 'fails', 'fn fails(n) { print n; fail; } fn main() { print 1; return group fails(2); }',
      'fault failed', 1, 2)
known(GROUPS, 'divides-by-0', 'fn f(n) { return 1 / n; } fn main() { return group f(0); }', 'fault divzero')
known(GROUPS, 'its-value-is-evaluated-first', RETURNS + '''fn t(n) { print n; return n; }
fn main() { return group id(t(1) + group t(t(2) * 5)) + t(3); }''', '= 14', 1, 2, 10, 3)
known(GROUPS, 'a-fault-in-its-value', RETURNS + 'fn main() { print 3; return group id(1 / 0); }', 'fault divzero', 3)
known(GROUPS, 'one-behind-the-other', BOTH.replace('return group ping(1);', '''let a = group ping(1);
print 100; return a + group ping(10);'''), '= 19', 2, 3, 4, 5, 100, 11, 12, 13, 14)
# A coroutine of an outer group waits while an inner group runs; the inner one's are left with it.
known(GROUPS, 'in-a-group', PING + PONG + '''fn outer(n) {
spawn t = helper;
let a = group ping(n);
switch b, u = t(a * 100); print b;
return group ping(b);
}
fn helper(x, p: coro) { print x; switch y, q = p(x + group ping(50)); return y; }
fn main() { return group outer(1); }''',
      '= 558', 2, 3, 4, 5, 500, 51, 52, 53, 54, 554, 555, 556, 557, 558)
known(GROUPS, 'a-tail-call-in-a-group', RETURNS + 'fn f(n) { return id(n + 1); } fn main() { return group f(2); }',
      '= 3')
# A switch in the inner group doesn't leave it: the outer coroutine's function returns to the inner group.
known(GROUPS, 'an-outer-coroutine-goes-on-in-an-inner-group', '''effect ask/0;
slots kept: res h [1];
fn outer(n) { spawn t = f; print handle waits(t) with h(); print group inner(n); return 4; }
fn waits(t: coro) { print do ask(); switch a, u = t(8); print a; return 70; }
handler h() { return(x) { return x; } on ask() k { store kept[0] = k; return 1; } }
fn inner(n) { take k = kept[0]; let r = resume k(n) with (); print r; return 5; }
fn f(x, p: coro) { print x; switch y, q = p(x + 1); print 99; return 6; }
fn main() { return group outer(3); }''', '= 4', 1, 3, 8, 9, 70, 5)
known(GROUPS, 'an-outer-coroutine-ends-an-inner-group', '''effect ask/0;
slots kept: res h [1];
fn outer(n) { spawn t = f; print handle waits(t) with h(); print group inner(n); return 4; }
fn waits(t: coro) { print do ask(); switch a, u = t(8); print a; return 70; }
handler h() { return(x) { return x; } on ask() k { store kept[0] = k; return 1; } }
fn inner(n) { take k = kept[0]; let r = resume k(n) with (); print r; return 5; }
fn f(x, p: coro) { print x; return 6; }
fn main() { return group outer(3); }''', '= 4', 1, 3, 8, 6)
# What waits in a group that is left goes on in another one.
known(GROUPS, 'what-waits-goes-on-in-another-group', '''effect ask/0;
slots kept: res h [1];
fn first(n) { spawn t = f; switch a, u = t(n); print a; return handle waits(u) with h(); }
fn waits(t: coro) { let v = do ask(); switch a, u = t(v); print a; return a + 1; }
handler h() { return(x) { return x; } on ask() k { store kept[0] = k; return 1; } }
fn second(n) { take k = kept[0]; return resume k(n) with () * 1000; }
fn f(x, p: coro) { switch y, q = p(x + 1); print y; switch z, r = q(y + 1); return 0; }
fn main() { print group first(3); return group second(20); }''', '= 22000', 4, 1, 20, 21)
known(GROUPS, 'what-waits-goes-on-outside-any-group', '''effect ask/0;
slots kept: res h [1];
fn first(n) { spawn t = f; switch a, u = t(n); print a; return handle waits(u) with h(); }
fn waits(t: coro) { let v = do ask(); print v; switch a, u = t(v); print a; return a + 1; }
handler h() { return(x) { return x; } on ask() k { store kept[0] = k; return 1; } }
fn f(x, p: coro) { switch y, q = p(x + 1); print y; switch z, r = q(y + 1); return 0; }
fn main() { print group first(3); take k = kept[0]; return resume k(20) with (); }''',
      'fault unhandled group', 4, 1, 20)
known(GROUPS, 'in-a-condition', RETURNS + '''fn main() {
let i = 3;
while group id(i) { if group id(i - 2) { print i; } i = i - 1; }
return group id(0) || group id(4) && group id(5);
}''', '= 1', 3, 1)

# ## Effects and handlers

ASKING = '''effect ask/0;
handler h(s) { return(x) { return x + s; } on ask() k { return resume k(s) with (s + 1); } }
'''
known(HANDLERS, 'an-effect-passes-through-a-group', ASKING + '''fn f(n) { print do ask(); return do ask() * n; }
fn under(n) { return 1000 + group f(n); }
fn main() { return handle under(2) with h(10); }''', '= 1034', 10)
known(HANDLERS, 'an-effect-passes-through-groups', ASKING + '''fn f(n) { print do ask(); return do ask() * n; }
fn g(n) { return 100 + group f(n + 1); }
fn under(n) { return 1000 + group g(n) + do ask(); }
fn main() { return handle under(2) with h(10); }''', '= 1158', 10)
known(HANDLERS, 'an-effect-in-a-group-without-a-handle', ASKING + '''fn f(n) { print n; return do ask(); }
fn main() { return group f(4); }''', 'fault unhandled ask', 4)
known(HANDLERS, 'a-handle-in-a-group', ASKING + '''fn f(n) { return do ask() * n; }
fn g(n) { return 100 + handle f(n) with h(3); }
fn main() { return group g(5); }''', '= 119')
known(HANDLERS, 'a-group-in-a-clause', '''effect ask/1;
fn body(n) { return do ask(n) + 1; }
fn pair(n) { spawn t = f; switch a, u = t(n); return a; }
fn f(x, p: coro) { print x; switch y, q = p(x * 2); return 0; }
handler h() { return(x) { return group pair(x); } on ask(v) k { return resume k(group pair(v)) with (); } }
fn main() { return handle body(3) with h(); }''', '= 14', 3, 7)
# The handle that is around the target's function stays with it.
TRAVELS = ASKING + '''fn main() { return group body(5); }
fn body(n) {
spawn t = f;
switch a, u = t(n); print a;
SECOND
}
fn f(x, p: coro) { return handle inside(x, p) with h(30); }
fn inside(x, p: coro) { print do ask(); switch y, q = p(x + 1); print do ask(); switch z, r = q(y + 1); return 9; }
'''
known(HANDLERS, 'a-handler-travels', TRAVELS.replace('SECOND', 'switch b, w = u(a + 1); print b; return b;'),
      '= 8', 30, 6, 31, 8)
known(HANDLERS, 'a-handler-travels-and-is-not-here', TRAVELS.replace('SECOND', 'return do ask();'),
      'fault unhandled ask', 30, 6)
known(HANDLERS, 'a-handler-travels-and-is-left', TRAVELS.replace('SECOND', '''switch b, w = u(a + 1);
switch c, v = w(7); fail;'''), '= 41', 30, 6, 31)
# The handle here is around the switch, so that it waits with what switched, and the target doesn't find it.
known(HANDLERS, 'a-handler-stays-behind', ASKING + '''fn main() { return group body(5); }
fn body(n) { spawn t = f; return handle under(t, n) with h(50); }
fn under(t: coro, n) { print do ask(); switch a, u = t(n); return a; }
fn f(x, p: coro) { print x; return do ask(); }''', 'fault unhandled ask', 50, 5)
known(HANDLERS, 'a-handler-stays-behind-and-is-here-again', ASKING + '''fn main() { return group body(5); }
fn body(n) { spawn t = f; return handle under(t, n) with h(50); }
fn under(t: coro, n) { print do ask(); switch a, u = t(n); return a + do ask(); }
fn f(x, p: coro) { print x; switch y, q = p(x + 1); return 0; }''', '= 109', 50, 5)
known(HANDLERS, 'two-handlers-take-turns', ASKING + '''fn main() { return group body(0); }
fn body(n) { spawn t = f; return handle left(t) with h(100); }
fn left(t: coro) { print do ask(); switch a, u = t(1); print do ask(); switch b, v = u(2); return do ask(); }
fn f(x, p: coro) { return handle right(x, p) with h(200); }
fn right(x, p: coro) { print do ask(); switch y, q = p(x); print do ask(); switch z, r = q(y); fail; }''',
      '= 205', 100, 200, 101, 201)
known(HANDLERS, 'a-handler-outside-the-group-is-of-both', ASKING + '''fn main() { return handle under() with h(100); }
fn under() { return group left(0); }
fn left(n) { spawn t = f; print do ask(); switch a, u = t(1); print do ask(); switch b, v = u(2); return do ask(); }
fn f(x, p: coro) { print do ask(); switch y, q = p(x); print do ask(); switch z, r = q(y); fail; }''',
      '= 209', 100, 101, 102, 103)
# A resumption that holds a group, with a coroutine that waits in it, is kept, and resumed when the handle has ended.
HOLDS = '''effect ask/0;
slots kept: res h [2];
handler h(place) { return(x) { return x * 10; } on ask() k { store kept[place] = k; return place; } }
fn main() { MAIN }
fn under() { return 1 + group body(5); }
fn body(n) { spawn t = f; switch a, u = t(n); print a; print do ask(); switch b, w = u(a + 1); return b; }
fn f(x, p: coro) { switch y, q = p(x + 1); print y; print do ask(); switch z, r = q(y + 1); return 0; }
'''
known(HANDLERS, 'a-resumption-that-holds-a-group', HOLDS.replace('MAIN', '''print handle under() with h(0);
take a = kept[0]; print resume a(70) with (1);
take b = kept[1]; return resume b(80) with (0);'''), '= 90', 6, 0, 70, 7, 1, 80)
known(HANDLERS, 'a-resumption-that-holds-a-group/twice', HOLDS.replace('MAIN', '''print handle under() with h(0);
take a = kept[0]; print resume a(70) with (1);
return resume a(80) with (0);'''), 'fault reused', 6, 0, 70, 7, 1)
known(HANDLERS, 'a-resumption-that-holds-a-group-in-a-group', HOLDS.replace('MAIN', '''print handle under() with h(0);
return group again(2);''') + '''fn again(n) {
spawn t = f; take a = kept[0]; print resume a(70) with (1); return last(t);
}
fn last(t: coro) { take b = kept[1]; return resume b(80) with (0); }
''', '= 90', 6, 0, 70, 7, 1, 80)
known(HANDLERS, 'a-resumption-without-its-group', '''effect ask/0;
slots kept: res h [1];
handler h() { return(x) { return x; } on ask() k { store kept[0] = k; return 0; } }
fn main() { print group body(1); take k = kept[0]; return resume k(9) with (); }
fn body(n) { return 5 + handle inner(n) with h(); }
fn inner(n) { spawn t = f; print do ask(); switch a, u = t(n); return a; }
fn f(x, p: coro) { return x; }''', 'fault unhandled group', 5, 9)
known(HANDLERS, 'a-coroutine-captured-with-a-resumption', '''effect ask/0;
handler h() { return(x) { return x; } on ask() k { return 100 + resume k(7) with (); } }
fn main() { return group body(1); }
fn body(n) { spawn t = f; switch a, u = t(n); print a; switch b, w = u(2); return b; }
fn f(x, p: coro) { return handle inner(x, p) with h(); }
fn inner(x, p: coro) { print do ask(); switch y, q = p(x + 10); print do ask(); switch z, r = q(y + 20); return z; }''',
      '= 22', 7, 11, 7)
# Coroutines as parameters of handlers and behind `with`.
known(HANDLERS, 'a-coroutine-is-a-parameter', '''effect ask/1;
handler h(c: coro, n) {
return(x) { switch y, u = c(x + n); return y; }
on ask(v) k { switch y, u = c(v); return resume k(y) with (u, n + 1); }
}
fn main() { return group body(3); }
fn body(n) { spawn t = f; return handle asks(n) with h(t, 1000); }
fn asks(n) { print do ask(n); print do ask(n + 1); return n + 2; }
fn f(x, p: coro) { switch y, q = p(x * 2); return f(y, q); }''', '= 2014', 6, 8)
known(HANDLERS, 'a-coroutine-is-a-parameter-of-both', '''effect ask/1;
handler h(c: coro, n) { return(x) { return x + n; } on ask(v) k { return resume k(v * 2) with ((c), n + 1); } }
fn main() { return group body(3); }
fn body(n) { spawn t = f; return handle asks(n, (t)) with h(t, 10); }
fn asks(n, t: coro) { print do ask(n); switch a, u = t(n); print a; return do ask(a); }
fn f(x, p: coro) { print x; switch y, q = p(x + 1); return 0; }''', '= 20', 6, 3, 4)
known(HANDLERS, 'a-resume-that-is-not-last-with-a-coroutine', '''effect ask/0;
handler h(c: coro) {
return(x) { switch y, u = c(x); return y; }
on ask() k { return 1 + resume k(5) with (c); }
}
fn main() { return group body(3); }
fn body(n) { spawn t = f; return handle asks() with h(t); }
fn asks() { return do ask() + do ask(); }
fn f(x, p: coro) { switch y, q = p(x * 100); return 0; }''', '= 1002')
known(HANDLERS, 'a-handled-function-of-a-coroutine', '''effect ask/0;
handler h() { return(x) { return x; } on ask() k { return resume k(5) with (); } }
fn main() { return group body(3); }
fn body(n) { spawn t = f; return handle f(n, t) with h() * 2; }
fn f(x, p: coro) { print x; if x > 4 { return do ask(); } switch y, q = p(x + 4); return y; }''',
      'fault unhandled ask', 3, 7)
known(HANDLERS, 'a-switch-in-a-clause', '''effect ask/1;
handler h() { return(x) { return x; } on ask(v) k { return go(k, v); } }
fn go(k: res h, v) { spawn t = f; switch a, u = t(v); print a; return resume k(a) with (); }
fn main() { return group body(3); }
fn body(n) { return handle asks(n) with h(); }
fn asks(n) { return do ask(n) + do ask(n * 10); }
fn f(x, p: coro) { switch y, q = p(x + 1); fail; }''', '= 35', 4, 31)
known(HANDLERS, 'a-last-resume-behind-a-switch', '''effect ask/1;
handler h(c: coro) {
return(x) { return x; }
on ask(v) k { spawn t = f; switch a, u = c(v); print a; return resume k(a) with (t); }
}
fn main() { return group body(3); }
fn body(n) { spawn t = f; return handle asks(n) with h(t); }
fn asks(n) { return do ask(n) * 1000 + do ask(n + 1); }
fn f(x, p: coro) { switch y, q = p(x + 1); fail; }''', '= 4005', 4, 5)

# ## Faults, and which of two is told

USED = 'fn f(x, p: coro) { print x; switch y, q = p(x); return 0; }\nfn t(n) { print n; return n; }\n'
known(FAULTS, 'used-before-it-is-switched-to-outside', USED + '''fn body(n) {
spawn c = f; switch a, u = c(n); return again(c);
}
fn again(c: coro) { switch a, u = c(t(2)); return a; }
fn main() { return group body(1); }''', 'fault reused', 1, 2)
# Both stand outside any group: what is used is told first.
OUTSIDE = USED + '''effect ask/0;
slots kept: res h [1];
handler h() { return(x) { return x; } on ask() k { store kept[0] = k; return 7; } }
fn waits(c: coro) { do ask(); switch a, u = c(t(3)); return a; }
fn body(n) { spawn c = f; let r = handle waits(c) with h(); SWITCH return r; }
fn main() { print group body(1); take k = kept[0]; return resume k(0) with (); }
'''
known(FAULTS, 'reused-before-unhandled-group', OUTSIDE.replace('SWITCH', 'switch a, u = c(n);'),
      'fault reused', 1, 7, 3)
known(FAULTS, 'unhandled-group-alone', OUTSIDE.replace('SWITCH', ''), 'fault unhandled group', 7, 3)
known(FAULTS, 'its-number-is-evaluated-first', USED + 'fn main() { spawn c = f; switch a, u = c(t(4) / 0); return 1; }',
      'fault divzero', 4)
known(FAULTS, 'its-number-is-evaluated-before-unhandled-group', USED + '''fn main() {
spawn c = f; print 5; switch a, u = c(t(4) + t(6)); return 1;
}''', 'fault unhandled group', 5, 4, 6)
known(FAULTS, 'its-number-uses-the-target', USED + '''fn body(n) { spawn c = f; switch a, u = c(uses(c)); return a; }
fn uses(c: coro) { switch a, u = c(8); return a; }
fn main() { return group body(1); }''', 'fault reused', 8)
known(FAULTS, 'its-number-fails', USED + '''fn fails() { fail; }
fn body(n) { spawn c = f; switch a, u = c(fails()); return a; }
fn main() { return group body(1); }''', 'fault failed')
known(FAULTS, 'behind-effects', 'effect a/0; effect b/3;\n' + USED + '''fn main() {
spawn c = f; print 1; switch a, u = c(2); return a;
}''', 'fault unhandled group', 1)
known(FAULTS, 'an-effect-behind-groups', 'effect a/0; effect b/0;\n' + USED + '''fn body(n) {
spawn c = f; switch a, u = c(n); print a; do b(); return a;
}
fn main() { return group body(6); }''', 'fault unhandled b', 6, 6)
known(FAULTS, 'a-group-that-has-ended', USED + '''fn body(n) { spawn c = f; switch a, u = c(n); return a; }
fn main() { print group body(6); spawn c = f; switch a, u = c(7); return a; }''', 'fault unhandled group', 6, 6)
known(FAULTS, 'a-clause-stands-outside-the-group', '''effect ask/0;
fn f(x, p: coro) { return x; }
fn body(n) { return do ask(); }
fn under() { return group body(1); }
handler h() { return(x) { return x; } on ask() k { print 2; spawn c = f; switch a, u = c(7); return a; } }
fn main() { return handle under() with h(); }''', 'fault unhandled group', 2)
known(FAULTS, 'a-return-clause-stands-outside-the-group', '''fn f(x, p: coro) { return x; }
fn id(n) { return n; }
fn under() { return group id(1); }
handler h() { return(x) { print x; spawn c = f; switch a, u = c(7); return a; } }
fn main() { return handle under() with h(); }''', 'fault unhandled group', 1)
known(FAULTS, 'a-fault-in-a-coroutine', USED + '''fn bad(x, p: coro) {
print x; return (0 - 9223372036854775807 - 1) / x;
}
fn body(n) { spawn c = bad; switch a, u = c(n); return a; }
fn main() { return group body(0 - 1); }''', 'fault overflow', -1)

# ## Steps

STEPS.each_step('steps/ping-and-pong', 'fn a(x) { spawn t = b; switch c, u = t(x); return c; }\n'
                'fn b(y, p: coro) { print y; switch c, q = p(y + 1); }\nfn main() { return group a(1); }')
STEPS.each_step('steps/reused', 'fn a(x) { spawn t = b; switch c, u = t(x); switch d, v = t(x); }\n'
                'fn b(y, p: coro) { print y; switch c, q = p(y); }\nfn main() { return group a(1); }')
STEPS.each_step('steps/unhandled-group', 'fn b(y, p: coro) { }\n'
                'fn main() { print 1; spawn t = b; switch c, u = t(2); }')
STEPS.each_step('steps/an-effect-and-a-handle', '''effect e/0;
fn a(x) { spawn t = b; switch c, u = t(x); return do e() + c; }
fn b(y, p: coro) { return handle i(y, p) with h(3); }
fn i(y, p: coro) { print do e(); switch c, q = p(y); }
handler h(s) { return(x) { return x; } on e() k { return resume k(s) with (s); } }
fn m() { return group a(1); }
fn main() { return handle m() with h(5); }''')
STEPS.is_known('steps/without-an-end', '''fn a(x, p: coro) { switch y, q = p(x); return a(y, q); }
fn body(n) { spawn t = a; return a(n, t); }
fn main() { return group body(1); }''', 'running', steps=100000)
