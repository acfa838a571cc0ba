#!/usr/bin/env python3
"""Drawn programs with sizes: a writer, a checker of sizes after the rules of docs/language.md, and an evaluator.
usage: sizes.py LO HI [--rows] [--exe EXE]"""
import random, subprocess, sys, os, tempfile

# ---- sizes: ('const', n) | ('name', Name) | ('own', n) of a parameter's unwritten level | ('unknown', n); types: 'i64', 'bool', ('array', size, type), ('tuple', [types])
class Name:
    def __init__(self, text): self.text = text

counter = [0]
def unknown():
    counter[0] += 1
    return ('unknown', counter[0])

def array(d, t): return ('array', d, t)
def is_array(t): return isinstance(t, tuple) and t[0] == 'array'
def is_tuple(t): return isinstance(t, tuple) and t[0] == 'tuple'

def agrees(d, e): return d == e if d[0] != 'name' or e[0] != 'name' else d[1] is e[1]
def shown(d): return str(d[1]) if d[0] == 'const' else d[1].text if d[0] == 'name' else 'unknown'

class Refused(Exception): pass
class Failed(Exception): pass

def differ(at, left, right): raise Refused((at, 'sizes differ: %s and %s' % (shown(left), shown(right))))

def same(at, wanted, found):
    """Every size that is wanted has to be the one found; None is not written."""
    if is_array(wanted):
        if wanted[1] is not None and not agrees(wanted[1], found[1]): differ(at, wanted[1], found[1])
        same(at, wanted[2], found[2])
    elif is_tuple(wanted):
        for w, f in zip(wanted[1], found[1]): same(at, w, f)

def each(t, change):
    if is_array(t): return array(change(t[1]), each(t[2], change))
    if is_tuple(t): return ('tuple', [each(x, change) for x in t[1]])
    return t

def has(t, test):
    if is_array(t): return test(t[1]) or has(t[2], test)
    if is_tuple(t): return any(has(x, test) for x in t[1])
    return False

def leaving(names, t):
    """Names that go out of scope are sizes no more: one name, one size that is not known."""
    made = {}
    def change(d):
        if d[0] == 'name' and any(d[1] is n for n in names):
            if id(d[1]) not in made: made[id(d[1])] = unknown()
            return made[id(d[1])]
        return d
    return each(t, change)

# ---- programs
class Node:
    def __init__(self, kind, *parts):
        self.kind, self.parts, self.at, self.mark, self.type = kind, list(parts), None, None, None

class Text:
    def __init__(self): self.lines = ['']
    def place(self): return (len(self.lines), len(self.lines[-1]) + 1)
    def put(self, s): self.lines[-1] += s
    def line(self): self.lines.append('')

def type_text(t):
    if is_array(t): return '[%s]%s' % ('' if t[1] is None or t[1][0] in ('own', 'unknown') else shown(t[1]), type_text(t[2]))
    if is_tuple(t): return '(%s)' % ', '.join(map(type_text, t[1]))
    return t

ATOM = {'int', 'name', 'index', 'slice', 'tuple', 'literal', 'part'}

def write(t, e, atom=False):
    k, p = e.kind, e.parts
    if atom and k not in ATOM:
        t.put('('); write(t, e); t.put(')'); return
    if k == 'infix':
        e.at = t.place(); write(t, p[1], True); t.put(' '); e.mark = t.place(); t.put(p[0] + ' '); write(t, p[2], True); return
    if k in ('ascribed', 'coerced'):
        e.at = t.place(); write(t, p[0], p[0].kind != 'call'); t.put(' '); e.mark = t.place()
        t.put((': ' if k == 'ascribed' else ':> ') + type_text(p[1])); return
    if k in ('index', 'slice', 'part'):
        e.at = t.place(); write(t, p[0], True)
        if k == 'part': t.put('.%d' % p[1]); return
        e.mark = t.place(); t.put('[')
        if k == 'index':
            write(t, p[1])
        else:
            a, b = p[1], p[2]
            if a is not None: write(t, a)
            t.put(':')
            if b is not None: write(t, b)
        t.put(']'); return
    if k == 'update':
        e.at = t.place(); write(t, p[0], True); t.put(' with '); e.mark = t.place(); t.put('['); write(t, p[1]); t.put('] = '); write(t, p[2], True); return
    e.at = t.place()
    if k == 'int': t.put(str(p[0]))
    elif k == 'name': t.put(p[0].text)
    elif k == 'literal':
        t.put('[')
        for i, x in enumerate(p):
            if i: t.put(', ')
            write(t, x)
        t.put(']')
    elif k == 'tuple':
        t.put('(')
        for i, x in enumerate(p):
            if i: t.put(', ')
            write(t, x)
        t.put(')')
    elif k == 'lambda':
        t.put('\\' + ' '.join(n.text for n in p[0]) + ' -> '); write(t, p[1])
    elif k == 'call':       # a name or a Name of a definition, arguments
        t.put(p[0] if isinstance(p[0], str) else p[0].text)
        for a in p[1:]:
            t.put(' '); t.put(a) if isinstance(a, str) else write(t, a, True)
    elif k == 'let':        # names, value, body
        t.put('let ' + (p[0][0].text if len(p[0]) == 1 else '(%s)' % ', '.join(n.text for n in p[0])) + ' = ')
        write(t, p[1]); t.put(' in '); write(t, p[2])
    elif k == 'sized':      # size, name, type, value, body
        t.put('let [%s] (%s: %s) = ' % (p[0].text, p[1].text, type_text(p[2]))); write(t, p[3]); t.put(' in '); write(t, p[4])
    elif k == 'if':
        t.put('if '); write(t, p[0]); t.put(' then '); write(t, p[1]); t.put(' else '); write(t, p[2])
    elif k == 'loop':       # name, first, counter, bound, body
        t.put('loop %s = ' % p[0].text); write(t, p[1]); t.put(' for %s < ' % p[2].text); write(t, p[3]); t.put(' do '); write(t, p[4])
    else: raise Exception(k)

class Definition:
    """sizes: Names; parameters: (Name, type as written); result: type as written or None; body"""
    def __init__(self, name, sizes, parameters, result, body):
        self.name, self.sizes, self.parameters, self.result, self.body = name, sizes, parameters, result, body

def write_program(definitions):
    t = Text()
    for i, d in enumerate(definitions):
        if i: t.line()
        t.put('def ' + d.name.text + ''.join(' [%s]' % n.text for n in d.sizes) + ''.join(' (%s: %s)' % (n.text, type_text(ty)) for n, ty in d.parameters))
        if d.result is not None: t.put(': ' + type_text(d.result))
        t.put(' ='); t.line(); t.put('  '); write(t, d.body)
    return t

# ---- the checker
def as_size(e):
    """The size that an argument names: a name or a number of type i64."""
    if e.kind == 'int' and e.parts[0] >= 0: return ('const', e.parts[0])
    if e.kind == 'name': return ('name', e.parts[0])
    return unknown()

def own(t):
    """Each level that is not written has a size of its own."""
    return each(t, lambda d: ('own', unknown()[1]) if d is None else d)

class Checker:
    def __init__(self): self.known = {}     # of each definition: size names, parameters, result

    def definition(self, d):
        parameters = [(n, own(t)) for n, t in d.parameters]
        for s in d.sizes:
            if not any(has(t, lambda x: x[0] == 'name' and x[1] is s) for n, t in parameters): raise Refused((first_place(d.body), 'a size escapes'))
        env = {n: t for n, t in parameters}
        for s in d.sizes: env[s] = 'i64'
        t = self.size(d.body, env)
        if d.result is not None:
            same(d.body.at, d.result, t)
            t = self.written(d.result, t)
        own_sizes = [x for n, ty in parameters for x in levels(ty) if x[0] == 'own']
        inner = [s for s in d.sizes] + [n for n, ty in parameters]
        self.known[d.name] = (parameters, t, [x[1] for x in own_sizes], inner)
        d.sized = parameters

    def written(self, w, t):
        """An unwritten size of a result is not known to callers."""
        if is_array(w): return array(unknown() if w[1] is None else w[1], self.written(w[2], t[2]))
        if is_tuple(w): return ('tuple', [self.written(a, b) for a, b in zip(w[1], t[1])])
        return t

    def size(self, e, env):
        e.type = getattr(self, 'of_' + e.kind)(e, env, *e.parts)
        return e.type

    def of_int(self, e, env, n): return 'i64'
    def of_name(self, e, env, n): return env[n]
    def of_infix(self, e, env, op, a, b):
        self.size(a, env); self.size(b, env)
        return 'bool' if op in ('<', '>', '==') else 'i64'
    def of_literal(self, e, env, *parts):
        ts = [self.size(x, env) for x in parts]
        for x, t in zip(parts[1:], ts[1:]): same(x.at, ts[0], t)
        return array(('const', len(parts)), ts[0])
    def of_tuple(self, e, env, *parts): return ('tuple', [self.size(x, env) for x in parts])
    def of_part(self, e, env, a, k): return self.size(a, env)[1][k]
    def of_index(self, e, env, a, i):
        t = self.size(a, env); self.size(i, env)
        return t[2]
    def of_slice(self, e, env, a, i, j):
        t = self.size(a, env)
        for x in (i, j):
            if x is not None: self.size(x, env)
        if i is None and j is None: return t
        if (i is None or (i.kind == 'int' and i.parts[0] == 0)) and j is not None: return array(as_size(j), t[2])
        return array(unknown(), t[2])
    def of_update(self, e, env, a, i, v):
        t = self.size(a, env); self.size(i, env); u = self.size(v, env)
        same(v.at, t[2], u)
        return t
    def of_ascribed(self, e, env, a, t):
        u = self.size(a, env); same(a.at, t, u)
        return u
    def of_coerced(self, e, env, a, t):
        u = self.size(a, env)
        def over(w, f):
            if is_array(w): return array(f[1] if w[1] is None else w[1], over(w[2], f[2]))
            return f
        return over(t, u)
    def of_let(self, e, env, names, value, body):
        t = self.size(value, env)
        inner = dict(env)
        if len(names) == 1: inner[names[0]] = t
        else:
            for n, u in zip(names, t[1]): inner[n] = u
        return leaving(names, self.size(body, inner))
    def of_sized(self, e, env, k, n, ty, value, body):
        t = self.size(value, env)
        if not has(ty, lambda x: x is not None and x[0] == 'name' and x[1] is k): raise Refused((value.at, 'a size escapes'))
        taken = {}
        def over(w, f):
            if not is_array(w): return f
            d = w[1]
            if d is None: d = f[1]
            elif d[0] == 'name' and d[1] is k:
                if k in taken and not agrees(taken[k], f[1]): differ(value.at, taken[k], f[1])
                taken[k] = f[1]
            elif not agrees(d, f[1]): differ(value.at, d, f[1])
            return array(d, over(w[2], f[2]))
        inner = dict(env); inner[n] = over(ty, t); inner[k] = 'i64'
        return leaving([k, n], self.size(body, inner))
    def of_if(self, e, env, c, a, b):
        self.size(c, env); t = self.size(a, env); u = self.size(b, env)
        def both(t, u):
            if is_array(t): return array(t[1] if agrees(t[1], u[1]) else unknown(), both(t[2], u[2]))
            if is_tuple(t): return ('tuple', [both(x, y) for x, y in zip(t[1], u[1])])
            return t
        return both(t, u)
    def of_loop(self, e, env, n, first, i, bound, body):
        t = self.size(first, env); self.size(bound, env)
        kept = levels(t); lost = [False] * len(kept)
        while True:
            at = iter(range(len(kept)))
            def now(d):
                k = next(at)
                if not lost[k]: return d
                return ('lost', (e.at, k))
            held = each(t, now)
            inner = dict(env); inner[n] = held; inner[i] = 'i64'
            u = leaving([n, i], self.size(body, inner))
            more = False
            for k, (d, f) in enumerate(zip(levels(held), levels(u))):
                if not lost[k] and not agrees(d, f): lost[k] = more = True
            if not more: break
        fresh = {}
        def end(d):
            if d[0] == 'lost':
                if d not in fresh: fresh[d] = unknown()
                return fresh[d]
            return d
        return each(held, end)
    def of_lambda(self, e, env, names, body): raise Exception('a lambda by itself')

    def function(self, f, env, parameters, whole):
        """A function that is handed on, with the types of its parameters. It may give no size that is not known."""
        if f == '(+)' or (isinstance(f, str)): return 'i64'
        inner = dict(env)
        for n, t in zip(f.parts[0], parameters): inner[n] = t
        t = leaving(f.parts[0], self.size(f.parts[1], inner))
        if whole and has(t, lambda d: d[0] in ('unknown', 'lost') and d not in self.owns): raise Refused((f.at, 'irregular'))
        return t

    owns = ()

    def of_call(self, e, env, f, *args):
        if not isinstance(f, str): return self.called(e, env, f, args)
        data = [a for a in args if not isinstance(a, str) and a.kind != 'lambda']
        ts = [self.size(a, env) for a in data]
        if f in ('map', 'tabulate', 'filter') or f.startswith('map'):
            g = args[0] if f != 'tabulate' else args[1]
            if f == 'tabulate': return array(as_size(args[0]), self.function(g, env, ['i64'], True))
            for a, t in zip(data[1:], ts[1:]):
                if not agrees(ts[0][1], t[1]): differ(a.at, ts[0][1], t[1])
            if f == 'filter':
                self.function(g, env, [ts[0][2]], False)
                return array(unknown(), ts[0][2])
            return array(ts[0][1], self.function(g, env, [t[2] for t in ts], True))
        if f == 'iota': return array(as_size(args[0]), 'i64')
        if f == 'replicate': return array(as_size(args[0]), ts[1])
        if f == 'zip':
            if not agrees(ts[0][1], ts[1][1]): differ(data[1].at, ts[0][1], ts[1][1])
            return array(ts[0][1], ('tuple', [ts[0][2], ts[1][2]]))
        if f == 'unzip': return ('tuple', [array(ts[0][1], t) for t in ts[0][2][1]])
        if f == 'reduce': return 'i64'
        if f == 'scan': return ts[1]
        if f in ('reverse', 'copy'): return ts[0]
        if f == 'rotate': return ts[1]
        if f == 'transpose': return array(ts[0][2][1], array(ts[0][1], ts[0][2][2]))
        if f == 'length': return 'i64'
        if f == 'indices': return array(ts[0][1], 'i64')
        if f in ('take', 'drop'): return array(unknown(), ts[1][2])
        if f == 'concat':
            same(data[1].at, ts[0][2], ts[1][2])
            return array(unknown(), ts[0][2])
        if f == 'unflatten': return array(as_size(args[0]), array(as_size(args[1]), ts[2][2]))
        if f == 'flatten': return array(unknown(), ts[0][2][2])
        raise Exception(f)

    def called(self, e, env, f, args):
        parameters, result, owned, inner = self.known[f]
        ts = [self.size(a, env) for a in args]
        taken = {}
        for (n, t), a in zip(parameters, args):
            if t == 'i64': taken[n] = as_size(a)
        def match(w, t, at):
            if is_array(w):
                d, x = w[1], t[1]
                if d[0] == 'name':
                    if d[1] in taken:
                        if not agrees(taken[d[1]], x): differ(at, taken[d[1]], x)
                    else: taken[d[1]] = x
                elif d[0] == 'own': taken[d] = x
                elif not agrees(d, x): differ(at, d, x)
                match(w[2], t[2], at)
            elif is_tuple(w):
                for a, b in zip(w[1], t[1]): match(a, b, at)
        for (n, w), a, t in zip(parameters, args, ts): match(w, t, a.at)
        fresh = {}
        def change(d):
            if d[0] == 'name' and d[1] in taken: return taken[d[1]]
            if d in taken: return taken[d]
            if d[0] == 'unknown':
                if d not in fresh: fresh[d] = unknown()
                return fresh[d]
            return d
        return each(result, change)

def levels(t):
    if is_array(t): return [t[1]] + levels(t[2])
    if is_tuple(t): return [d for x in t[1] for d in levels(x)]
    return []

def first_place(e): return e.at

# ---- the evaluator: an array is (sizes of all levels, rows)
class Array:
    def __init__(self, sizes, rows): self.sizes, self.rows = sizes, rows

def wrap(n):
    n &= (1 << 64) - 1
    return n - (1 << 64) if n >> 63 else n

def fail(at, kind): raise Failed((at, kind))

def row_sizes(v): return v.sizes if isinstance(v, Array) else ()

class Evaluator:
    def __init__(self, definitions): self.definitions = {d.name: d for d in definitions}

    def worth(self, d, env):
        if d[0] == 'const': return d[1]
        if d[0] == 'name': return env[d[1]]
        return env.get(d, 0)

    def sizes_of(self, t, env): return tuple(max(0, self.worth(d, env)) for d in levels(t))

    def enter(self, t, v, env):
        if is_array(t):
            for d, n in zip(levels(t), v.sizes):
                if d[0] in ('own', 'unknown', 'lost'): env[d] = n
        elif is_tuple(t):
            for x, y in zip(t[1], v): self.enter(x, y, env)

    def value(self, e, env): return getattr(self, 'of_' + e.kind)(e, env, *e.parts)

    def of_int(self, e, env, n): return n
    def of_name(self, e, env, n): return env[n]
    def of_infix(self, e, env, op, a, b):
        x, y = self.value(a, env), self.value(b, env)
        return {'+': lambda: wrap(x + y), '-': lambda: wrap(x - y), '*': lambda: wrap(x * y), '<': lambda: x < y, '>': lambda: x > y, '==': lambda: x == y}[op]()
    def of_literal(self, e, env, *parts):
        vs = [self.value(x, env) for x in parts]
        return Array((len(vs),) + row_sizes(vs[0]), vs)
    def of_tuple(self, e, env, *parts): return [self.value(x, env) for x in parts]
    def of_part(self, e, env, a, k): return self.value(a, env)[k]
    def of_index(self, e, env, a, i):
        x = self.value(a, env); k = self.value(i, env)
        if not 0 <= k < len(x.rows): fail(e.mark, 'index out of bounds')
        return x.rows[k]
    def of_slice(self, e, env, a, i, j):
        x = self.value(a, env)
        p = 0 if i is None else self.value(i, env)
        q = len(x.rows) if j is None else self.value(j, env)
        if not 0 <= p <= q <= len(x.rows): fail(e.mark, 'index out of bounds')
        return Array((q - p,) + x.sizes[1:], x.rows[p:q])
    def of_update(self, e, env, a, i, v):
        x = self.value(a, env); k = self.value(i, env); w = self.value(v, env)
        if not 0 <= k < len(x.rows): fail(e.mark, 'index out of bounds')
        return Array(x.sizes, x.rows[:k] + [w] + x.rows[k + 1:])
    def of_ascribed(self, e, env, a, t): return self.value(a, env)
    def of_coerced(self, e, env, a, t):
        v = self.value(a, env)
        for d, n in zip(levels(t), v.sizes):
            if d is not None and self.worth(d, env) != n: fail(e.mark, 'size mismatch')
        return v
    def of_let(self, e, env, names, value, body):
        v = self.value(value, env); inner = dict(env)
        for n, w in zip(names, [v] if len(names) == 1 else v): inner[n] = w
        self.enter(value.type, v, inner)
        return self.value(body, inner)
    def of_sized(self, e, env, k, n, ty, value, body):
        v = self.value(value, env); inner = dict(env); inner[n] = v
        for d, m in zip(levels(ty), v.sizes):
            if d is not None and d[0] == 'name' and d[1] is k: inner[k] = m
        self.enter(value.type, v, inner)
        return self.value(body, inner)
    def of_if(self, e, env, c, a, b): return self.value(a if self.value(c, env) else b, env)
    def of_loop(self, e, env, n, first, i, bound, body):
        v = self.value(first, env); m = self.value(bound, env)
        for k in range(max(0, m)):
            inner = dict(env); inner[n] = v; inner[i] = k
            at = e.type
            self.enter(at, v, inner)
            v = self.value(body, inner)
        return v
    def apply(self, f, args, env):
        if f == '(+)': return wrap(args[0] + args[1])
        inner = dict(env)
        for n, v in zip(f.parts[0], args): inner[n] = v
        return self.value(f.parts[1], inner)

    def of_call(self, e, env, f, *args):
        if not isinstance(f, str):
            d = self.definitions[f]
            vs = [self.value(a, env) for a in args]
            return self.run(d, vs)
        data = [self.value(a, env) if not isinstance(a, str) and a.kind != 'lambda' else a for a in args]
        at = e.at
        if f == 'tabulate':
            n = data[0]
            if n < 0: fail(at, 'bad range')
            rows = [self.apply(args[1], [k], env) for k in range(n)]
            return Array((n,) + (row_sizes(rows[0]) if rows else self.sizes_of(e.type[2], env)), rows)
        if f.startswith('map'):
            xs = data[1:]
            rows = [self.apply(args[0], list(r), env) for r in zip(*[x.rows for x in xs])]
            return Array((len(rows),) + (row_sizes(rows[0]) if rows else self.sizes_of(e.type[2], env)), rows)
        if f == 'filter':
            rows = [r for r in data[1].rows if self.apply(args[0], [r], env)]
            return Array((len(rows),) + data[1].sizes[1:], rows)
        if f == 'iota':
            if data[0] < 0: fail(at, 'bad range')
            return Array((data[0],), list(range(data[0])))
        if f == 'replicate':
            if data[0] < 0: fail(at, 'bad range')
            return Array((data[0],) + row_sizes(data[1]), [data[1]] * data[0])
        if f == 'zip': return Array(data[0].sizes[:1], [list(r) for r in zip(data[0].rows, data[1].rows)])
        if f == 'unzip': return [Array(data[0].sizes, [r[k] for r in data[0].rows]) for k in (0, 1)]
        if f == 'reduce': return wrap(data[1] + sum(data[2].rows))
        if f == 'scan':
            out, s = [], data[1]
            for x in data[2].rows: s = wrap(s + x); out.append(s)
            return Array(data[2].sizes, out)
        if f == 'reverse': return Array(data[0].sizes, data[0].rows[::-1])
        if f == 'copy': return data[0]
        if f == 'rotate':
            n = len(data[1].rows); k = data[0] % n if n else 0
            return Array(data[1].sizes, data[1].rows[k:] + data[1].rows[:k])
        if f == 'transpose':
            n, m = data[0].sizes[:2]
            return Array((m, n) + data[0].sizes[2:], [Array((n,) + data[0].sizes[2:], [r.rows[k] for r in data[0].rows]) for k in range(m)])
        if f == 'length': return len(data[0].rows)
        if f == 'indices': return Array(data[0].sizes[:1], list(range(len(data[0].rows))))
        if f in ('take', 'drop'):
            k = data[0]
            if not 0 <= k <= len(data[1].rows): fail(at, 'index out of bounds')
            rows = data[1].rows[:k] if f == 'take' else data[1].rows[k:]
            return Array((len(rows),) + data[1].sizes[1:], rows)
        if f == 'concat':
            rows = data[0].rows + data[1].rows
            return Array((len(rows),) + data[0].sizes[1:], rows)
        if f == 'unflatten':
            n, m, x = data
            if n < 0 or m < 0: fail(at, 'bad range')
            if n * m != len(x.rows): fail(at, 'size mismatch')
            return Array((n, m) + x.sizes[1:], [Array((m,) + x.sizes[1:], x.rows[k * m:k * m + m]) for k in range(n)])
        if f == 'flatten':
            n, m = data[0].sizes[:2]
            return Array((n * m,) + data[0].sizes[2:], [y for r in data[0].rows for y in r.rows])
        raise Exception(f)

    def run(self, d, vs):
        env = {}
        for (n, t), v in zip(d.sized, vs):
            env[n] = v
            if is_array(t):
                for x, m in zip(levels(t), v.sizes):
                    if x[0] == 'own': env[x] = m
                    elif x[0] == 'name' and x[1] in d.sizes and x[1] not in env: env[x[1]] = m
        return self.value(d.body, env)

def value_text(v):
    if isinstance(v, Array):
        if 0 in v.sizes: return 'empty(%si64)' % ''.join('[%d]' % n for n in v.sizes)
        return '[%s]' % ', '.join(map(value_text, v.rows))
    if isinstance(v, bool): return str(v).lower()
    return '%di64' % v

# ---- the writer
class Draw:
    def __init__(self, seed):
        self.r = random.Random(seed); self.fresh = 0; self.fault = self.r.random() < 0.5; self.definitions = []

    def name(self, letter):
        self.fresh += 1
        return Name('%s%d' % (letter, self.fresh))

    def pick(self, xs): return self.r.choice(xs)

    def scalar(self, env, depth):
        r = self.r
        names = [n for n, t in env if t == 'i64']
        arrays = [n for n, t in env if is_array(t) and t[2] == 'i64']
        k = r.randrange(8) if depth > 0 else r.randrange(2)
        if k == 0 or (k == 1 and not names): return Node('int', r.randrange(5))
        if k in (1, 2) and names: return Node('name', self.pick(names))
        if k in (3, 4): return Node('infix', self.pick('+-*'), self.scalar(env, depth - 1), self.scalar(env, depth - 1))
        if k == 5 and arrays: return Node('index', Node('name', self.pick(arrays)), Node('int', 0))
        if k == 6: return Node('call', 'length', self.any_array(env, depth - 1))
        return Node('call', 'reduce', '(+)', Node('int', 0), self.any_array(env, depth - 1, 1))

    def any_size(self, env):
        r = self.r
        sizes = [('name', n) for n, t in env if t == 'i64'] + [d for n, t in env for d in levels(t)]
        return self.pick(sizes) if sizes and r.random() < 0.8 else ('const', r.randrange(4))

    def any_array(self, env, depth, rank=None):
        rank = rank or self.pick([1, 1, 2])
        t = 'i64'
        for _ in range(rank): t = array(self.any_size(env), t)
        return self.expression(t, env, depth)

    def loose(self, t, env, depth):
        """An array of the type but for its first size, which is not known."""
        k = self.r.randrange(3)
        same_rows = array(self.any_size(env), t[2])
        a = self.expression(same_rows, env, depth - 1)
        if k == 0 and t[2] == 'i64':
            x = self.name('x')
            return Node('call', 'filter', Node('lambda', [x], Node('infix', self.pick('<>'), Node('name', x), Node('int', self.r.randrange(3)))), a)
        if k == 1: return Node('call', 'concat', a, self.expression(array(self.any_size(env), t[2]), env, depth - 1))
        return Node('call', self.pick(['take', 'drop']), Node('int', self.r.randrange(2)), a)

    def as_number(self, d, env):
        """An expression whose value the size names."""
        if d[0] == 'const': return Node('int', d[1])
        if d[0] == 'name' and any(n is d[1] for n, t in env): return Node('name', d[1])
        return None

    def expression(self, t, env, depth):
        r = self.r
        if t == 'i64': return self.scalar(env, depth)
        if self.fault and r.random() < 0.06:
            self.fault = False
            t = array(self.any_size(env) if r.random() < 0.7 else unknown(), t[2])
        d, row = t[1], t[2]
        there = [n for n, u in env if is_array(u) and levels(u) == levels(t)]
        number = self.as_number(d, env)
        choices = []
        if there: choices += ['name'] * 4
        if number is not None:
            if row == 'i64': choices += ['iota'] * 2
            choices += ['replicate', 'tabulate']
        if d[0] == 'const' and 0 < d[1] < 4 and depth > 0: choices += ['literal']
        if depth > 0:
            choices += ['map', 'map', 'map2', 'reverse', 'if', 'let', 'copy', 'update', 'coerced', 'loop', 'sized', 'call', 'call', 'part']
            if row == 'i64': choices += ['scan', 'unzip']
            else: choices += ['transpose', 'transpose']
            if number is not None and d[0] == 'name': choices += ['slice']
        if not choices:
            return self.escape(t, env)
        k = self.pick(choices)
        return getattr(self, 'make_' + k)(t, d, row, env, depth, number, there)

    def escape(self, t, env):
        """By a test when it runs."""
        ds = [x if x[0] == 'const' or (x[0] == 'name' and any(n is x[1] for n, u in env)) else None for x in levels(t)]
        a = Node('call', 'iota', Node('int', self.r.randrange(3)))
        u = array(ds[0], 'i64')
        if t[2] != 'i64':
            a = Node('call', 'replicate', Node('int', self.r.randrange(3)), a); u = array(ds[0], array(ds[1], 'i64'))
        return Node('coerced', a, u)

    def make_name(self, t, d, row, env, depth, number, there): return Node('name', self.pick(there))
    def make_iota(self, t, d, row, env, depth, number, there): return Node('call', 'iota', number)
    def make_replicate(self, t, d, row, env, depth, number, there): return Node('call', 'replicate', number, self.expression(row, env, depth - 1))
    def make_tabulate(self, t, d, row, env, depth, number, there):
        x = self.name('i')
        return Node('call', 'tabulate', number, Node('lambda', [x], self.expression(row, env + [(x, 'i64')], depth - 1)))
    def make_literal(self, t, d, row, env, depth, number, there): return Node('literal', *[self.expression(row, env, depth - 2) for _ in range(d[1])])
    def make_map(self, t, d, row, env, depth, number, there):
        x = self.name('x'); u = self.pick(['i64', 'i64', array(self.any_size(env), 'i64')])
        a = self.expression(array(d, u), env, depth - 1)
        return Node('call', 'map', Node('lambda', [x], self.expression(row, env + [(x, u)], depth - 1)), a)
    def make_map2(self, t, d, row, env, depth, number, there):
        x, y = self.name('x'), self.name('y'); u = self.pick(['i64', 'i64', array(self.any_size(env), 'i64')])
        a, b = self.expression(array(d, u), env, depth - 1), self.expression(array(d, 'i64'), env, depth - 1)
        return Node('call', 'map2', Node('lambda', [x, y], self.expression(row, env + [(x, u), (y, 'i64')], depth - 1)), a, b)
    def make_reverse(self, t, d, row, env, depth, number, there):
        if self.r.random() < 0.5: return Node('call', 'reverse', self.expression(t, env, depth - 1))
        return Node('call', 'rotate', self.scalar(env, 0), self.expression(t, env, depth - 1))
    def make_copy(self, t, d, row, env, depth, number, there): return Node('call', 'copy', self.expression(t, env, depth - 1))
    def make_update(self, t, d, row, env, depth, number, there):
        return Node('update', Node('call', 'copy', self.expression(t, env, depth - 1)), Node('int', 0), self.expression(row, env, depth - 1))
    def make_if(self, t, d, row, env, depth, number, there):
        c = Node('infix', self.pick('<>'), self.scalar(env, 0), self.scalar(env, 0))
        return Node('if', c, self.expression(t, env, depth - 1), self.expression(t, env, depth - 1))
    def make_let(self, t, d, row, env, depth, number, there):
        x = self.name('v')
        u = self.pick(['i64', array(self.any_size(env), 'i64'), array(self.any_size(env), array(self.any_size(env), 'i64'))])
        if is_array(u) and self.r.random() < 0.4:
            value = self.loose(u, env, depth); u = array(unknown(), u[2])
        else: value = self.expression(u, env, depth - 1)
        return Node('let', [x], value, self.expression(t, env + [(x, u)], depth - 1))
    def make_sized(self, t, d, row, env, depth, number, there):
        k, x = self.name('k'), self.name('v')
        u = array(None, 'i64'); value = self.loose(u, env, depth)
        ty = array(('name', k), 'i64') if not (self.fault and self.r.random() < 0.05) else array(None, 'i64')
        return Node('sized', k, x, ty, value, self.expression(t, env + [(x, array(('name', k), 'i64')), (k, 'i64')], depth - 1))
    def make_loop(self, t, d, row, env, depth, number, there):
        x, i = self.name('v'), self.name('i')
        return Node('loop', x, self.expression(t, env, depth - 1), i, Node('int', self.r.randrange(3)), self.expression(t, env + [(x, t), (i, 'i64')], depth - 1))
    def make_scan(self, t, d, row, env, depth, number, there): return Node('call', 'scan', '(+)', Node('int', 0), self.expression(t, env, depth - 1))
    def make_unzip(self, t, d, row, env, depth, number, there):
        z = Node('call', 'zip', self.expression(t, env, depth - 1), self.expression(t, env, depth - 1))
        return Node('part', Node('call', 'unzip', z), self.r.randrange(2))
    def make_part(self, t, d, row, env, depth, number, there):
        x, y = self.name('p'), self.name('q'); u = self.pick(['i64', t])
        return Node('let', [x, y], Node('tuple', self.expression(t, env, depth - 1), self.expression(u, env, depth - 2)), self.expression(t, env + [(x, t), (y, u)], depth - 1))
    def make_transpose(self, t, d, row, env, depth, number, there):
        return Node('call', 'transpose', self.expression(array(row[1], array(d, row[2])), env, depth - 1))
    def make_slice(self, t, d, row, env, depth, number, there):
        return Node('slice', self.expression(array(self.any_size(env), row), env, depth - 1), None, number)
    def make_coerced(self, t, d, row, env, depth, number, there):
        ds = [x if x[0] == 'const' or (x[0] == 'name' and any(n is x[1] for n, u in env)) else None for x in levels(t)]
        if ds[0] is None: return self.escape(t, env)
        a = self.expression(array(self.any_size(env), row), env, depth - 1) if self.r.random() < 0.5 else self.loose(t, env, depth)
        return Node('coerced', a, array(ds[0], 'i64' if len(ds) == 1 else array(None, 'i64')))
    def make_call(self, t, d, row, env, depth, number, there):
        ok = [f for f in self.definitions if is_array(f.result) and len(levels(f.result)) == len(levels(t)) and all(x is not None for x in levels(f.result))]
        if not ok: return self.make_reverse(t, d, row, env, depth, number, there)
        f = self.pick(ok); taken = {}
        for x, y in zip(levels(f.result), levels(t)):
            if x[0] == 'const':
                if x != y: return self.make_copy(t, d, row, env, depth, number, there)
            elif x[1] in taken and not agrees(taken[x[1]], y): return self.make_copy(t, d, row, env, depth, number, there)
            else: taken[x[1]] = y
        args = []
        for n, ty in f.parameters:
            if ty == 'i64':
                if n in taken:
                    a = self.as_number(taken[n], env)
                    if a is None: return self.make_copy(t, d, row, env, depth, number, there)
                else:
                    a = self.scalar(env, 0); taken[n] = as_size(a)
                args.append(a)
            else:
                def put(x):
                    if x is None: return self.any_size(env)
                    if x[0] == 'name':
                        if x[1] not in taken: taken[x[1]] = self.any_size(env)
                        return taken[x[1]]
                    return x
                args.append(self.expression(each(ty, put), env, depth - 2))
        return Node('call', f.name, *args)

    def definition(self, name, depth):
        r = self.r
        sizes = [self.name('n') for _ in range(r.randrange(3))]
        parameters, env = [], [(s, 'i64') for s in sizes]
        for k in range(r.randrange(1, 4)):
            p = self.name('a')
            if r.random() < 0.3: ty = 'i64'
            else:
                def level():
                    known = [('name', s) for s in sizes] + [('name', n) for n, u in parameters if u == 'i64'] + [('const', r.randrange(1, 4))]
                    return self.pick(known) if r.random() < 0.8 else None
                ty = array(level(), 'i64') if r.random() < 0.7 else array(level(), array(level(), 'i64'))
            parameters.append((p, ty))
        for s in sizes:
            if not any(has(ty, lambda x: x is not None and x[0] == 'name' and x[1] is s) for n, ty in parameters) and r.random() < 0.97:
                parameters.append((self.name('a'), array(('name', s), 'i64')))
        inside = [(n, own(ty)) for n, ty in parameters]
        env = [(s, 'i64') for s in sizes] + inside
        result = array(self.any_size(env), 'i64')
        if r.random() < 0.3: result = array(result[1], array(self.any_size(env), 'i64'))
        body = self.expression(result, env, depth)
        written = each(result, lambda d: None if d[0] in ('own', 'unknown') else d)
        d = Definition(name, sizes, parameters, written, body)
        self.definitions.append(d)
        return d

    def program(self):
        for k in range(self.r.randrange(3)): self.definition(self.name('f'), 3)
        self.definition(Name('main'), 4)
        return self.definitions

    def inputs(self, d):
        r = self.r; worth = {}; values = []
        good = r.random() < 0.9
        for n, t in d.parameters:
            if t == 'i64':
                v = r.randrange(4); worth[n] = v; values.append(v)
            else:
                def number(x):
                    if x is None or not good: return r.randrange(4)
                    if x[0] == 'const': return x[1]
                    if x[1] not in worth: worth[x[1]] = r.randrange(4)
                    return worth[x[1]]
                sizes = tuple(number(x) for x in levels(t))
                def fill(s): return r.randrange(-3, 6) if not s else Array(s, [fill(s[1:]) for _ in range(s[0])])
                values.append(fill(sizes))
        return values

def clash(d, values):
    """The first parameter with another length than a size says."""
    worth = {}
    for k, ((n, t), v) in enumerate(zip(d.parameters, values)):
        if t == 'i64': worth[n] = v
        else:
            for x, have in zip(levels(t), v.sizes):
                if x is None: continue
                if x[0] == 'const': want = x[1]
                elif x[1] in worth: want = worth[x[1]]
                else: worth[x[1]] = want = have
                if want != have: return 'input: size of parameter %d: have %d, want %d' % (k + 1, have, want)
    return None

def case(seed):
    """The text, the input, the status, out and err of a drawn program."""
    g = Draw(seed); definitions = g.program(); t = write_program(definitions); text = '\n'.join(t.lines) + '\n'
    checker = Checker()
    main = definitions[-1]; values = g.inputs(main); given = ' '.join(value_text(v).replace('i64', 'i64') for v in values)
    try:
        for d in definitions: checker.definition(d)
    except Refused as it:
        (line, column), what = it.args[0]
        return text, given, 6, '', 'futhark: t.fut:%d:%d: %s\n' % (line, column, what)
    wrong = clash(main, values)
    if wrong: return text, given, 11, '', 'futhark: %s\n' % wrong
    try:
        v = Evaluator(definitions).run(main, values)
    except Failed as it:
        (line, column), what = it.args[0]
        return text, given, 12, '', 'futhark: t.fut:%d:%d: failure: %s\n' % (line, column, what)
    return text, given, 0, value_text(v) + '\n', ''

def main():
    lo, hi = int(sys.argv[1]), int(sys.argv[2]); exe = sys.argv[sys.argv.index('--exe') + 1] if '--exe' in sys.argv else None
    from collections import Counter
    kinds, bad = Counter(), 0
    for seed in range(lo, hi):
        text, given, status, out, err = case(seed)
        if len(text) > 1500: kinds['long'] += 1; continue
        kinds[status if status != 6 else err.split(': ', 2)[-1].split(':')[0]] += 1
        if '--rows' in sys.argv: row(text, given, status, out, err)
        if exe:
            with tempfile.TemporaryDirectory() as folder:
                open(folder + '/t.fut', 'w').write(text)
                ran = subprocess.run([exe, 'run', 't.fut'], cwd=folder, input=given.encode(), capture_output=True)
                if (ran.returncode, ran.stdout.decode(), ran.stderr.decode()) != (status, out, err):
                    bad += 1
                    print('---- seed', seed); print(text); print('input', given); print('wanted', status, out, err); print('got', ran.returncode, ran.stdout.decode(), ran.stderr.decode())
    print(dict(kinds), 'differ:', bad, file=sys.stderr)

def row(text, given, status, out, err):
    print('run run t.fut\nfile t.fut'); print('\n'.join('> ' + l + ' ' if 0 else '| ' + l for l in text.splitlines()))
    if given: print('input'); print('> ' + given)
    print('status %d' % status)
    for what, said in (('out', out), ('err', err)):
        if said: print(what); print('\n'.join('| ' + l for l in said.splitlines()))
    print()

if __name__ == '__main__': main()
