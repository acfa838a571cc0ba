#!/usr/bin/env python3
"""Drawn programs full of aliases: a writer, a checker of uniqueness after the rules of the language, and two evaluators, one that
copies and one that really overwrites. usage: aliases.py EXE LO HI [--keep DIR]"""
import random, subprocess, sys, os, tempfile, itertools

# ---- programs: nodes are lists [kind, ...] with a place that writing gives them
class Node:
    def __init__(self, kind, *parts, ty=None):
        self.kind, self.parts, self.ty, self.at, self.mark = kind, list(parts), ty, None, None

class Text:
    def __init__(self): self.lines = ['']
    def place(self): return (len(self.lines), len(self.lines[-1]) + 1)
    def put(self, s): self.lines[-1] += s
    def line(self): self.lines.append('')

ATOM = {'int', 'name', 'index', 'slice', 'field', 'tuple', 'row'}

def write(t, e, atom=False):
    k, p = e.kind, e.parts
    if atom and k not in ATOM:
        t.put('('); write(t, e); t.put(')'); return
    e.at = t.place()
    if k in ('index', 'row', 'slice', 'field'):
        write(t, p[0], True)
        if k == 'field': t.put('.%d' % p[1])
        elif k == 'slice': t.put('[0:]')
        else:
            t.put('['); write(t, p[1])
            if len(p) > 2: t.put(', '); write(t, p[2])
            t.put(']')
        return
    if k == 'with':
        write(t, p[0], True)
        t.put(' with '); e.mark = t.place(); t.put('['); write(t, p[1]); t.put('] = '); write(t, p[2], True); return
    if k == 'plus':
        write(t, p[0], True); t.put(' + '); write(t, p[1], True); return
    if k == 'int': t.put(str(p[0]))
    elif k == 'name': t.put(p[0].text)
    elif k == 'tuple':
        t.put('('); write(t, p[0]); t.put(', '); write(t, p[1]); t.put(')')
    elif k == 'call':
        write(t, p[0])
        for a in p[1:]: t.put(' '); write(t, a, True)
    elif k == 'prim':
        t.put(p[0])
        for a in p[1:]:
            t.put(' '); t.put(a) if isinstance(a, str) else write(t, a, True)
    elif k == 'let':
        t.put('let '); pattern(t, p[0]); t.put(' = '); write(t, p[1]); t.put(' in '); write(t, p[2])
    elif k == 'letwith':    # let a[i] = v in e : name, new name, index, value, body
        t.put('let '); e.parts[0].at = t.place(); e.parts[1].at = t.place(); t.put(p[0].parts[0].text)
        e.mark = t.place(); t.put('['); write(t, p[2]); t.put('] = '); write(t, p[3]); t.put(' in '); write(t, p[4])
    elif k == 'if':
        t.put('if '); write(t, p[0], p[0].kind != 'plus'); t.put(' > 0 then '); write(t, p[1]); t.put(' else '); write(t, p[2])
    elif k == 'loop':       # pattern, first, (name, bound) or (name, over), body
        t.put('loop '); pattern(t, p[0]); t.put(' = '); write(t, p[1])
        i, over, many = p[2]
        t.put(' for '); i.at = t.place(); t.put(i.text)
        if over is None: t.put(' < %di64 do ' % many)
        else: t.put(' in '); write(t, over); t.put(' do ')
        write(t, p[3])
    elif k == 'lambda':     # parameter, body
        t.put('\\'); p[0].at = t.place(); t.put(p[0].text + ' -> '); write(t, p[1])
    else: raise Exception(k)

class Name:
    def __init__(self, text, ty): self.text, self.ty, self.at = text, ty, None

def pattern(t, p):
    if isinstance(p, Name): p.at = t.place(); t.put(p.text)
    else:
        t.put('('); pattern(t, p[0]); t.put(', '); pattern(t, p[1]); t.put(')')

TY = {'i': 'i64', 'a': '[]i64', 'b': '[][]i64', 'p': '([]i64, []i64)'}

# ---- drawing
class Draw:
    def __init__(self, r): self.r, self.n = r, 0
    def fresh(self, ty):
        self.n += 1
        if self.r.random() < .15 and self.n > 3: return Name('v%d' % self.r.randint(1, self.n), ty)
        return Name('v%d' % self.n, ty)
    def pick(self, scope, ty): 
        seen, out = set(), []
        for n in reversed(scope):
            if n.text not in seen:
                seen.add(n.text)
                if n.ty == ty: out.append(n)
        return self.r.choice(out) if out and self.r.random() < .97 else None
    def int(self, s, d):
        r = self.r.random()
        if d <= 0 or r < .15:
            n = self.pick(s, 'i')
            return Node('name', n, ty='i') if n and self.r.random() < .5 else Node('int', self.r.randint(0, 2), ty='i')
        if r < .5: return Node('index', self.expr('a', s, d - 1), self.index(), ty='i')
        if r < .6: return Node('index', self.expr('b', s, d - 1), Node('int', self.r.randint(0, 1)), self.index(), ty='i')
        if r < .75: return Node('plus', self.int(s, d - 1), self.int(s, d - 1), ty='i')
        fs = [n for n in self.visible(s) if isinstance(n.ty, tuple) and n.ty[1] == 'i']
        if fs: return self.call(self.r.choice(fs), s, d)
        return self.around('i', s, d)
    def visible(self, s):
        seen, out = set(), []
        for n in reversed(s):
            if n.text not in seen: seen.add(n.text); out.append(n)
        return out
    def index(self): return Node('int', self.r.randint(0, 2), ty='i')
    def call(self, f, s, d): return Node('call', Node('name', f), *[self.expr(x[0], s, d - 1) for x in f.ty[0]], ty=f.ty[1])
    def around(self, ty, s, d):
        r = self.r.random()
        if r < .25: return Node('if', self.int(s, d - 2), self.expr(ty, s, d - 1), self.expr(ty, s, d - 1), ty=ty)
        if r < .85: return self.let(ty, s, d)
        return self.loop(ty, s, d) if ty != 'i' or self.r.random() < .5 else self.let(ty, s, d)
    def let(self, ty, s, d):
        r = self.r.random()
        if r < .12:
            n = self.pick(s, 'a')
            if n:
                new = Name(n.text, 'a')
                return Node('letwith', Node('name', n, ty='a'), new, self.index(), self.int(s, d - 2), self.expr(ty, s + [new], d - 1), ty=ty)
        if r < .22:
            x = self.fresh('i'); out = self.r.choice(['i', 'a'])
            f = self.fresh(((('i', False),), out, False))
            return Node('let', f, Node('lambda', x, self.expr(out, s + [x], d - 2)), self.expr(ty, s + [f], d - 1), ty=ty)
        if r < .4:
            x, y = self.fresh('a'), self.fresh('a')
            if x.text == y.text: y.text += "'"
            return Node('let', (x, y), self.expr('p', s, d - 1), self.expr(ty, s + [x, y], d - 1), ty=ty)
        vt = self.r.choice('aaaabbpi'); x = self.fresh(vt)
        return Node('let', x, self.expr(vt, s, d - 1), self.expr(ty, s + [x], d - 1), ty=ty)
    def loop(self, ty, s, d):
        if ty == 'p':
            x, y = self.fresh('a'), self.fresh('a')
            if x.text == y.text: y.text += "'"
            pat, inner = (x, y), [x, y]
        else: pat = self.fresh(ty); inner = [pat]
        if self.r.random() < .3:
            over = self.expr('b', s, d - 2); i = self.fresh('a'); turn = (i, over, 2)
        else: i = self.fresh('i'); turn = (i, None, 2)
        first = self.expr(ty, s, d - 1)
        return Node('loop', pat, first, turn, self.expr(ty, s + inner + [i], d - 1), ty=ty)
    def expr(self, ty, s, d):
        if ty == 'i': return self.int(s, d)
        r = self.r.random()
        n = self.pick(s, ty)
        if n and (d <= 0 or r < .3): return Node('name', n, ty=ty)
        if d <= 0:
            if ty == 'a': return Node('prim', 'iota', Node('int', 3), ty='a')
            if ty == 'b': return Node('prim', 'replicate', Node('int', 2), self.expr('a', s, 0), ty='b')
            return Node('tuple', self.expr('a', s, 0), self.expr('a', s, 0), ty='p')
        if r < .5: return self.around(ty, s, d)
        fs = [n for n in self.visible(s) if isinstance(n.ty, tuple) and n.ty[1] == ty]
        if fs and r < .62: return self.call(self.r.choice(fs), s, d)
        if ty == 'p': return Node('tuple', self.expr('a', s, d - 1), self.expr('a', s, d - 1), ty='p')
        w = self.r.randint(0, 9)
        if ty == 'a':
            if w < 3: return Node('with', self.expr('a', s, d - 1), self.index(), self.int(s, d - 2), ty='a')
            if w == 3: return Node('row', self.expr('b', s, d - 1), Node('int', self.r.randint(0, 1)), ty='a')
            if w == 4: return Node('slice', self.expr('a', s, d - 1), ty='a')
            if w == 5: return Node('field', self.expr('p', s, d - 1), self.r.randint(0, 1), ty='a')
            if w == 6: return Node('prim', 'copy', self.expr('a', s, d - 1), ty='a')
            if w == 7: return Node('prim', 'reverse', self.expr('a', s, d - 1), ty='a')
            if w == 8: return Node('prim', 'map', '(+ 1)', self.expr('a', s, d - 1), ty='a')
            return Node('prim', 'scatter', self.expr('a', s, d - 1), '[0]', '[7]', ty='a')
        if w < 4: return Node('with', self.expr('b', s, d - 1), Node('int', self.r.randint(0, 1)), self.expr('a', s, d - 1), ty='b')
        if w < 6: return Node('prim', 'replicate', Node('int', 2), self.expr('a', s, d - 1), ty='b')
        if w < 8: return Node('prim', 'reverse', self.expr('b', s, d - 1), ty='b')
        return Node('prim', 'copy', self.expr('b', s, d - 1), ty='b')
    def program(self):
        defs, s = [], []
        for i in range(self.r.randint(1, 3)):
            ps = [Name('q%d%d' % (i, j), self.r.choice('aaab')) for j in range(self.r.randint(1, 2))]
            stars = [self.r.random() < .5 for _ in ps]
            out = self.r.choice('aaapi'); ostar = self.r.random() < .3 and out == 'a'
            f = Name('f%d' % i, (tuple((p.ty, st) for p, st in zip(ps, stars)), out, ostar))
            defs.append((f, ps, self.expr(out, s + ps, self.r.randint(2, 4)))); s = s + [f]
        n = Name('n', 'i'); out = self.r.choice('aabpi')
        m = Name('main', ((('i', False),), out, False))
        defs.append((m, [n], self.expr(out, s + [n], self.r.randint(4, 7))))
        return defs

def write_program(defs):
    t = Text()
    for f, ps, e in defs:
        t.put('def '); f.at = t.place(); t.put(f.text)
        for p, (ty, star) in zip(ps, f.ty[0]):
            t.put(' ('); p.at = t.place(); t.put('%s: %s%s)' % (p.text, '*' if star else '', TY[ty]))
        t.put(': %s%s = ' % ('*' if f.ty[2] else '', TY[f.ty[1]])); write(t, e); t.line()
    return '\n'.join(t.lines)

# ---- the rules
class Refused(Exception): pass
def at(p): return '%d:%d' % p

class Value:    # 'sets' by component, or a function: what it shares with and its type
    def __init__(self, sets, fun=None): self.sets, self.fun = sets, fun
    def all(self): return set().union(*self.sets) if self.sets else set()

COMPS = {'i': 0, 'a': 1, 'b': 1, 'p': 2}
def own(name, i): return (0,) + name.at + (i, name.text)
def before(a, place): return a[1:3] < place

class Here:
    def __init__(self, scope, fixed, loop, fun, asked): self.scope, self.fixed, self.loop, self.fun, self.asked = scope, fixed, loop, fun, asked
    def but(self, **k):
        h = Here(self.scope, self.fixed, self.loop, self.fun, self.asked)
        for x in k: setattr(h, x, k[x])
        return h

class Held:
    def __init__(self, place, value, count): self.at, self.value, self.count = place, value, count

class Checker:
    def __init__(self): self.lost = []
    def where(self, a, since=0):
        for b, p in self.lost[since:]:
            if a == b: return p
    def consume(self, place, s):
        for a in sorted(s):
            if not self.where(a): self.lost.append((a, place))
    def no_loss(self, h, since, s, used, name=None):
        if not h.asked: return
        bad = sorted(a for a in s if self.where(a, since))
        if bad: raise Refused('%s: %s is used after it was consumed at %s' % (at(used), name or bad[0][4], at(self.where(bad[0], since))))
    def demand(self, h, s, place, text):
        if h.asked and s: raise Refused(text % (at(place), sorted(s)[0][4]))
    def settle(self, h, parts):
        for p in parts: self.no_loss(h, p.count, p.value.all(), p.at)
    def fixed_or_outside(self, h, s, place): self.demand(h, {a for a in s if a in h.fixed or before(a, h.loop)}, place, '%s: %s may not be consumed')
    def captured(self, h, s, place): self.demand(h, {a for a in s if before(a, h.fun)}, place, '%s: %s is captured and may not be consumed')
    # each name of an array stands in its own set; a function that is bound is no array
    def named(self, name, v): return v if v.fun else Value([s | {own(name, i)} for i, s in enumerate(v.sets)])
    def bind(self, pat, v, scope):
        scope = dict(scope)
        if isinstance(pat, Name): scope[pat.text] = self.named(pat, v)
        else:
            for i, q in enumerate(pat): scope[q.text] = self.named(q, Value([v.sets[i]]))
        return scope
    # a value by itself: a name, or a path from one, is used
    def value(self, e, h):
        v, name = self.look(e, h)
        if name: self.no_loss(h, 0, v.all(), e.at, name)
        return Held(e.at, v, len(self.lost))
    def fresh(self, ty): return Value([set() for _ in range(COMPS[ty])])
    def of(self, ty, s): return Value([set(s) for _ in range(COMPS[ty])])
    def names(self, e):
        k, p = e.kind, e.parts
        if k == 'name': yield p[0].text; return
        for x in p:
            if isinstance(x, Node): yield from self.names(x)
            if isinstance(x, tuple):
                for y in x:
                    if isinstance(y, Node): yield from self.names(y)
    def capture(self, e, scope):
        # the names from outside, as they stand in that scope; a path of fields is that component alone
        k, p = e.kind, e.parts
        if k == 'name': return scope[p[0].text].all() if p[0].text in scope and scope[p[0].text] else set()
        if k == 'field' and p[0].kind == 'name':
            v = scope.get(p[0].parts[0].text)
            return set(v.sets[p[1]]) if v and v.sets else set()
        inner, out = scope, set()
        if k == 'let':
            out |= self.capture(p[1], scope); inner = self.hide(scope, p[0]); return out | self.capture(p[2], inner)
        if k == 'letwith':
            out |= self.capture(p[0], scope) | self.capture(p[2], scope) | self.capture(p[3], scope)
            return out | self.capture(p[4], self.hide(scope, p[1]))
        if k == 'lambda': return self.capture(p[1], self.hide(scope, p[0]))
        if k == 'loop':
            out |= self.capture(p[1], scope)
            if p[2][1] is not None: out |= self.capture(p[2][1], scope)
            return out | self.capture(p[3], self.hide(self.hide(scope, p[0]), p[2][0]))
        for x in p:
            if isinstance(x, Node): out |= self.capture(x, scope)
        return out
    def hide(self, scope, pat):
        scope = dict(scope)
        for q in (pat if isinstance(pat, tuple) else (pat,)): scope[q.text] = None
        return scope
    def look(self, e, h):
        k, p = e.kind, e.parts
        if k == 'int': return self.fresh('i'), None
        if k == 'name': return h.scope[p[0].text], p[0].text
        if k == 'field':
            v, name = self.look(p[0], h)
            return Value([v.sets[p[1]]]), name
        if k in ('index', 'row'):
            parts = [self.value(x, h) for x in p]; self.settle(h, parts)
            return self.of('i' if k == 'index' else 'a', parts[0].value.all()), None
        if k == 'slice':
            a = self.value(p[0], h); self.settle(h, [a]); return self.of('a', a.value.all()), None
        if k == 'plus':
            self.settle(h, [self.value(x, h) for x in p]); return self.fresh('i'), None
        if k == 'tuple':
            parts = [self.value(x, h) for x in p]; self.settle(h, parts)
            return Value([parts[0].value.sets[0], parts[1].value.sets[0]]), None
        if k in ('with', 'letwith'):
            if k == 'with': array, rest, out = p[0], p[1:], None
            else: array, rest, out = p[0], p[2:4], p[4]
            a = self.value(array, h); parts = [self.value(x, h) for x in rest]
            s, name = a.value.all(), array.parts[0].text if array.kind == 'name' else None
            both = s & parts[-1].value.all()
            if h.asked and both: raise Refused('%s: a value here aliases %s' % (at(e.mark), name or sorted(both)[0][4]))
            self.fixed_or_outside(h, s, e.mark); self.captured(h, s, e.mark); self.settle(h, [a] + parts); self.consume(e.mark, s)
            if k == 'with': return self.fresh(e.ty), None
            v = self.fresh('a')
            return self.value(out, h.but(scope=self.bind(p[1], v, h.scope))).value, None
        if k == 'prim': return self.primitive(e, h), None
        if k == 'call':
            f = Held(p[0].at, h.scope[p[0].parts[0].text], 0)
            self.no_loss(h, 0, f.value.all(), p[0].at, p[0].parts[0].text)
            f.count = len(self.lost)
            args = [self.value(x, h) for x in p[1:]]
            return self.call(e, h, f, args, [st for _, st in f.value.fun[0]], f.value.fun[1], f.value.fun[2]), None
        if k == 'let':
            a = self.value(p[1], h)
            return self.value(p[2], h.but(scope=self.bind(p[0], a.value, h.scope))).value, None
        if k == 'if':
            self.value(p[0], h); start = list(self.lost)
            v = self.value(p[1], h).value; one = self.lost; self.lost = list(start)
            w = self.value(p[2], h).value; other = self.lost; self.lost = one
            for a, q in other:
                if not self.where(a): self.lost.append((a, q))
            return Value([s | t for s, t in zip(v.sets, w.sets)]), None
        if k == 'lambda':
            keep = list(self.lost)
            body = self.value(p[1], h.but(scope=dict(h.scope, **{p[0].text: self.fresh('i')}), fun=e.at))
            self.lost = keep
            return Value([self.capture(p[1], self.hide(h.scope, p[0]))], ((('i', False),), p[1].ty, False)), None
        if k == 'loop': return self.loop(e, h), None
        raise Exception(k)
    def call(self, e, h, f, args, stars, out, ostar):
        for a, st in zip(args, stars):
            if st: self.fixed_or_outside(h, a.value.all(), a.at)
        for a, st in zip(args, stars):
            if st: self.captured(h, a.value.all(), a.at)
        self.settle(h, [f] + args)
        sides = [(f.at, s, False) for s in f.value.sets] + [(a.at, s, st) for a, st in zip(args, stars) for s in a.value.sets]
        for i, (place, s, st) in enumerate(sides):
            if st and h.asked:
                for j, (q, t, _) in enumerate(sides):
                    if i != j and s & t: raise Refused('%s: %s is used after it was consumed at %s' % (at(q), sorted(s & t)[0][4], at(place)))
        for a, st in zip(args, stars):
            if st: self.consume(a.at, a.value.all())
        s = set(f.value.all())
        for a, st in zip(args, stars):
            if not st: s |= a.value.all()
        n = 0 if ostar else COMPS[out]
        if n > 1: s = s | {(1,) + e.at + (0, 'result')}
        return Value([set() if ostar else set(s) for _ in range(COMPS[out])])
    def primitive(self, e, h):
        word, args = e.parts[0], [x for x in e.parts[1:] if isinstance(x, Node)]
        parts = [self.value(x, h) for x in args]
        f = Held(e.at, Value([]), 0)
        if word == 'scatter': return self.call(e, h, f, parts, [True], 'a', True)
        fresh = word in ('iota', 'replicate', 'copy', 'map')
        return self.call(e, h, f, parts, [False] * len(parts), e.ty, fresh)
    def loop(self, e, h):
        pat, first, (i, over, many), body = e.parts
        pats = pat if isinstance(pat, tuple) else (pat,)
        a = self.value(first, h)
        os = set()
        if over is not None: os = self.value(over, h).value.all()
        starts = [first.parts[j].at if first.kind == 'tuple' else a.at for j in range(len(a.value.sets))]
        def inside(sets, h, asked):
            v = Value(sets)
            scope = self.bind(pat, v, h.scope)
            scope[i.text] = self.named(i, Value([os])) if over is not None else self.fresh('i')
            return h.but(scope=scope, loop=e.at, asked=asked)
        keep = list(self.lost)
        g = self.value(body, inside([set() for _ in a.value.sets], h, False)).value
        flow, self.lost = self.lost, keep
        names = [own(q, 0) for q in pats] if a.value.sets else []
        eaten = [any(n == b for b, _ in flow) for n in names]
        n = len(names); xs = [set() for _ in names]
        for _ in range(n + 1):
            xs = [set() if eaten[c] else a.value.sets[c] | {b for b in g.sets[c] if before(b, e.at)} | set().union(set(), *[xs[d] for d in range(n) if names[d] in g.sets[c]]) for c in range(n)]
        for c in range(n):
            if eaten[c]: self.fixed_or_outside(h, a.value.sets[c], starts[c])
        for c in range(n):
            if eaten[c]: self.captured(h, a.value.sets[c], starts[c])
        self.settle(h, [a])
        bad = set()
        for c in range(n):
            if eaten[c]: bad |= a.value.sets[c] & os.union(*[a.value.sets[d] for d in range(n) if d != c], set())
        self.demand(h, bad, body.at, '%s: a value here aliases %s')
        for c in range(n):
            if eaten[c]: self.consume(starts[c], a.value.sets[c])
        if h.asked:
            v = self.value(body, inside(xs, h, True)).value
            kept, bad = {names[c] for c in range(n) if not eaten[c]}, set()
            for c in range(n):
                if eaten[c]:
                    bad |= {b for b in v.sets[c] if before(b, e.at) or b in kept}
                    for d in range(n):
                        if d != c: bad |= v.sets[c] & v.sets[d]
            self.demand(h, bad, body.at, '%s: a value here aliases %s')
        else:
            for b, q in flow:
                if not self.where(b): self.lost.append((b, q))
            v = g
        return Value([set() if eaten[c] else xs[c] | v.sets[c] for c in range(n)])
    def definition(self, f, ps, e, scope):
        self.lost = []
        scope, fixed = dict(scope), set()
        for q, (ty, star) in zip(ps, f.ty[0]):
            v = self.named(q, self.fresh(ty)); scope[q.text] = v
            if not star: fixed |= v.all()
        h = Here(scope, fixed, f.at, f.at, True)
        v = self.value(e, h).value
        if f.ty[2]:
            bad = set()
            for c, s in enumerate(v.sets):
                bad |= {a for a in s if before(a, f.at) or a in fixed}
                for d, t in enumerate(v.sets):
                    if c != d: bad |= s & t
            self.demand(h, bad, e.at, '%s: a value here aliases %s')

def check(defs):
    scope, c = {}, Checker()
    try:
        for f, ps, e in defs:
            c.definition(f, ps, e, scope)
            scope[f.text] = Value([], f.ty)
    except Refused as r: return str(r)

# ---- evaluators: an array is a store with a place for each of its words
class Arr:
    def __init__(self, store, places): self.store, self.places = store, places   # places: list of ints or list of lists
def words(a): return [a.store[q] if isinstance(q, int) else [a.store[z] for z in q] for q in a.places]
def made(xs):
    if xs and isinstance(xs[0], list):
        store, places = [], []
        for row in xs: places.append(list(range(len(store), len(store) + len(row)))); store += row
        return Arr(store, places)
    return Arr(list(xs), list(range(len(xs))))

class Eval:
    def __init__(self, overwrite, defs): self.over, self.defs = overwrite, {f.text: (ps, e) for f, ps, e in defs}
    def run(self, e, s):
        k, p = e.kind, e.parts
        if k == 'int': return p[0]
        if k == 'name': return s[p[0].text] if p[0].text in s else ('def', p[0].text)
        if k == 'plus': a = self.run(p[0], s); return a + self.run(p[1], s)
        if k == 'tuple': a = self.run(p[0], s); return (a, self.run(p[1], s))
        if k == 'field': return self.run(p[0], s)[p[1]]
        if k == 'slice': a = self.run(p[0], s); return Arr(a.store, a.places[0:])
        if k == 'row': a = self.run(p[0], s); return Arr(a.store, a.places[p[1].parts[0]])
        if k == 'index':
            a = self.run(p[0], s)
            if len(p) > 2: return a.store[a.places[self.run(p[1], s)][self.run(p[2], s)]]
            return a.store[a.places[self.run(p[1], s)]]
        if k == 'with': return self.update(self.run(p[0], s), self.run(p[1], s), self.run(p[2], s))
        if k == 'letwith':
            new = self.update(self.run(p[0], s), self.run(p[2], s), self.run(p[3], s))
            return self.run(p[4], dict(s, **{p[1].text: new}))
        if k == 'let': return self.run(p[2], self.bound(p[0], self.run(p[1], s), s))
        if k == 'if': return self.run(p[1] if self.run(p[0], s) > 0 else p[2], s)
        if k == 'lambda': return ('fun', p[0], p[1], s)
        if k == 'call':
            f = self.run(p[0], s); args = [self.run(x, s) for x in p[1:]]
            if f[0] == 'fun': return self.run(f[2], dict(f[3], **{f[1].text: args[0]}))
            ps, b = self.defs[f[1]]
            return self.run(b, {q.text: a for q, a in zip(ps, args)})
        if k == 'loop':
            pat, first, (i, over, many), body = p
            v = self.run(first, s); o = self.run(over, s) if over is not None else None
            for t in range(many):
                x = t if o is None else Arr(o.store, o.places[t])
                v = self.run(body, dict(self.bound(pat, v, s), **{i.text: x}))
            return v
        w = p[0]; a = [self.run(x, s) for x in p[1:] if isinstance(x, Node)]
        if w == 'iota': return made(list(range(a[0])))
        if w == 'replicate': return made([words(a[1]) for _ in range(a[0])])
        if w == 'copy': return made(words(a[0]))
        if w == 'reverse': return Arr(a[0].store, a[0].places[::-1])
        if w == 'map': return made([x + 1 for x in words(a[0])])
        if w == 'scatter': return self.update(a[0], 0, 7)
        raise Exception(w)
    def bound(self, pat, v, s):
        if isinstance(pat, Name): return dict(s, **{pat.text: v})
        return dict(s, **{pat[0].text: v[0], pat[1].text: v[1]})
    def update(self, a, i, v):
        if not self.over: a = made(words(a))
        q = a.places[i]
        if isinstance(q, int): a.store[q] = v
        else:
            for z, x in zip(q, words(v)): a.store[z] = x
        return a if not self.over else Arr(a.store, a.places)

def shown(v):
    if isinstance(v, tuple): return [x for y in v for x in shown(y)]
    if isinstance(v, int): return ['%di64' % v]
    def word(x): return '[' + ', '.join(word(y) for y in x) + ']' if isinstance(x, list) else '%di64' % x
    return [word(words(v))]

def main():
    exe, lo, hi = sys.argv[1], int(sys.argv[2]), int(sys.argv[3])
    keep = sys.argv[5] if len(sys.argv) > 5 else None
    counts = dict(accepted=0, refused=0, differ=0, unsound=0); kinds = {}
    for seed in range(lo, hi):
        defs = Draw(random.Random(seed)).program(); text = write_program(defs)
        said = check(defs)
        if said is None:
            counts['accepted'] += 1
            one, other = [shown(Eval(w, defs).run(defs[-1][2], {'n': 1})) for w in (False, True)]
            if one != other: counts['unsound'] += 1; print('UNSOUND', seed, one, other); print(text)
            want = (0, ''.join(x + '\n' for x in one), '')
        else:
            counts['refused'] += 1
            kind = said.split(': ', 1)[1]; kind = 'used' if 'used after' in kind else 'fixed' if 'may not be consumed' in kind and 'captured' not in kind else 'captured' if 'captured' in kind else 'shared'
            kinds[kind] = kinds.get(kind, 0) + 1
            want = (7, '', 'futhark: t.fut:%s\n' % said)
        if exe == '-':
            if keep: open('%s/%d.fut' % (keep, seed), 'w').write(text + '\n-- %r\n' % (want,))
            continue
        with tempfile.TemporaryDirectory() as d:
            open(d + '/t.fut', 'w').write(text)
            got = subprocess.run([exe, 'run', 't.fut'], cwd=d, input='1', capture_output=True, text=True)
            got = (got.returncode, got.stdout, got.stderr)
        if got != want: counts['differ'] += 1; print('DIFFERS', seed, want, got); print(text)
    print(counts, kinds)
if __name__ == '__main__': main()
