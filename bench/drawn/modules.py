#!/usr/bin/env python3
"""Drawn programs of several files with modules: a writer, an elaborator after the rules of docs/language.md, and an evaluator.
usage: bench/drawn/modules.py FROM TO [--plain] [--show] [--rows] [--exe PROGRAM]
With --plain no program declares a type, with --rows those of several files are printed as rows."""
import random, subprocess, sys, os, tempfile

# ---- trees: every node is a Node with a kind and parts; a path has the place of its first token
class Node:
    def __init__(self, kind, *parts): self.kind, self.parts, self.at = kind, list(parts), None
class Refused(Exception): pass      # a refusal of names: (line, column, text)
class Elsewhere(Exception): pass    # hangs on what was refused before

def wrap(n): return (n + 2**63) % 2**64 - 2**63

# ---- types: 'i64' | 'bool' | Hidden | ('to', parameter, result) | ('tuple', types)
class Hidden:
    def __init__(self, name, hides): self.name, self.hides = name, hides
def to(a, b): return ('to', a, b)
def opened(t, own):
    if isinstance(t, Hidden): return opened(t.hides, own) if t in own and t.hides is not None else t
    if isinstance(t, tuple): return (t[0],) + tuple(opened(x, own) for x in t[1:]) if t[0] == 'to' else ('tuple', tuple(opened(x, own) for x in t[1]))
    return t

# ---- things: values are Value, modules Members or Functor, module types Signature; names that were refused are Stub
class Value:
    def __init__(self, type, evaluate): self.type, self.evaluate, self.done = type, evaluate, None
    def get(self):
        if self.done is None: self.done = (self.evaluate(),)
        return self.done[0]
class Members:
    def __init__(self, rows): self.rows = rows
class Functor:
    def __init__(self, name, bound, names, gives, file): self.name, self.bound, self.names, self.gives, self.file = name, bound, names, gives, file
class Signature:
    def __init__(self, tree, names, file): self.tree, self.names, self.file = tree, names, file
class Stub: pass
ANY = ('any', None, Stub())

# names that are seen: pairs (row, older) with row = (space, name, thing)
def put(rows, names):
    for row in rows: names = (row, names)
    return names

def find(space, name, names):
    while names:
        row, names = names
        if row is ANY: raise Elsewhere()
        if row[0] == space and row[1] == name:
            if isinstance(row[2], Stub): raise Elsewhere()
            return row[2]
    return None

def find_in(space, name, members):
    for row in reversed(members.rows):
        if row is ANY: raise Elsewhere()
        if row[0] == space and row[1] == name:
            if isinstance(row[2], Stub): raise Elsewhere()
            return row[2]
    return None

SCALARS = {'i64': 'i64', 'bool': 'bool'}
class World:
    """Files by path, what they gave, and the first refusal of each."""
    def __init__(self, files): self.files, self.loaded, self.order, self.refused, self.ill, self.applications = files, {}, [], {}, False, 0

def refuse(at, text): raise Refused((at, text))

def module_of_path(w, path, names):
    m = find('module', path.parts[0], names)
    if m is None: refuse(path.at, '%s is not bound' % path.parts[0])
    for x in path.parts[1:]:
        if isinstance(m, Functor): refuse(path.at, 'no member %s' % x)
        m2 = find_in('module', x, m)
        if m2 is None: refuse(path.at, 'no member %s' % x)
        m = m2
    return m

def thing_of_path(w, space, path, names):
    """A type or a module type."""
    xs = path.parts
    if len(xs) == 1:
        t = find(space, xs[0], names)
        if t is None and space == 'type' and xs[0] in SCALARS: return SCALARS[xs[0]]
        if t is None: refuse(path.at, '%s is not bound' % xs[0])
        return t
    front = Node('path', *xs[:-1]); front.at = path.at
    m = module_of_path(w, front, names)
    t = None if isinstance(m, Functor) else find_in(space, xs[-1], m)
    if t is None: refuse(path.at, 'no member %s' % xs[-1])
    return t

def value_of_path(w, path, names):
    xs = path.parts
    v = find('value', xs[0], names)
    if v is not None: return v, xs[1:]
    if len(xs) == 1: refuse(path.at, '%s is not bound' % xs[0])
    m = find('module', xs[0], names)
    if m is None: refuse(path.at, '%s is not bound' % xs[0])
    for i, x in enumerate(xs[1:], 1):
        if isinstance(m, Functor): refuse(path.at, 'no member %s' % x)
        inner = find_in('module', x, m)
        if i + 1 < len(xs) and inner is not None: m = inner; continue
        v = find_in('value', x, m)
        if v is None: refuse(path.at, 'no member %s' % x)
        return v, xs[i + 1:]

def type_of(w, te, names):
    if te.kind == 'path': return thing_of_path(w, 'type', te, names)
    if te.kind == 'to':
        a = type_of(w, te.parts[0], names)
        return to(a, type_of(w, te.parts[1], names))
    return ('tuple', tuple(type_of(w, t, names) for t in te.parts))

# ---- expressions: resolving gives (type, evaluate); evaluate takes the locals
def ill(w):
    w.ill = True
    return 'ill', lambda l: 0

def expression(w, e, names):
    k, p = e.kind, e.parts
    if k == 'int': return 'i64', lambda l: p[0]
    if k == 'bool': return 'bool', lambda l: p[0]
    if k == 'path':
        v, fields = value_of_path(w, e, names)
        if fields: return ill(w)
        if isinstance(v, Local): return v.type, lambda l: l[v]
        return v.type, lambda l: v.get()
    if k == 'op':
        s, a = expression(w, p[1], names)
        t, b = expression(w, p[2], names)
        if s != 'i64' or t != 'i64': return ill(w)
        if p[0] == '<': return 'bool', lambda l: a(l) < b(l)
        return 'i64', lambda l: wrap({'+': lambda x, y: x + y, '-': lambda x, y: x - y, '*': lambda x, y: x * y}[p[0]](a(l), b(l)))
    if k == 'if':
        c, x = expression(w, p[0], names)
        s, a = expression(w, p[1], names)
        t, b = expression(w, p[2], names)
        if c != 'bool' or s != t: return ill(w)
        return s, lambda l: a(l) if x(l) else b(l)
    if k == 'let':
        s, a = expression(w, p[1], names)
        v = Local(s)
        t, b = expression(w, p[2], put([('value', p[0], v)], names))
        return t, lambda l: b({**l, v: a(l)})
    if k == 'tuple':
        parts = [expression(w, x, names) for x in p]
        return ('tuple', tuple(t for t, _ in parts)), lambda l: tuple(f(l) for _, f in parts)
    if k == 'apply':
        t, f = expression(w, p[0], names)
        for s, a in [expression(w, x, names) for x in p[1:]]:
            if not (isinstance(t, tuple) and t[0] == 'to' and t[1] == s): return ill(w)
            t, f = t[2], (lambda f, a: lambda l: f(l)(a(l)))(f, a)
        return t, f
class Local:
    def __init__(self, type): self.type = type

def definition(w, d, names):
    """def f (x: t) .. : t = e"""
    name, params, result, e = d.parts
    inner, types, locals_ = names, [], []
    for x, te in params:
        t = type_of(w, te, inner); v = Local(t)
        types.append(t); locals_.append(v); inner = put([('value', x, v)], inner)
    r = type_of(w, result, inner)
    t, f = expression(w, e, inner)
    if t != r: w.ill = True
    for s in reversed(types): r = to(s, r)
    def curried(i, l): return f(l) if i == len(locals_) else lambda a: curried(i + 1, {**l, locals_[i]: a})
    return Value(r, lambda: curried(0, {}))

# ---- modules
def module(w, m, names, file, live):
    k, p = m.kind, m.parts
    if k == 'path': return module_of_path(w, m, names)
    if k == 'decs': return Members(declarations(w, p[0], names, file, live, False)[0])
    if k == 'apply':
        f = module(w, p[0], names, file, live)
        for a in p[1:]:
            if not isinstance(f, Functor): refuse(p[0].at, '%s is not bound' % ('.'.join(p[0].parts) if p[0].kind == 'path' else 'module'))
            g = module(w, a, names, file, live)
            if live: w.applications += 1
            f = applied(w, f, g, live)
        return f
    if k == 'lambda':
        x, s, t, body = p
        return functor(w, x, s, t, body, names, file, live)
    if k == 'seal':
        n = module(w, p[0], names, file, live)
        return meet(w, p[1], n, 'hidden' if live else 'nothing' , [], names, file)
    if k == 'import': return imported(w, m.at, file, p[0])

def functor(w, x, s, t, body, names, file, live):
    bound = meet(w, s, None, 'nothing', [], names, file)
    inner = put([('module', x, bound)], names)
    if t is not None: meet(w, t, None, 'nothing', [], inner, file)
    was = w.ill
    n = module(w, body, inner, file, False)
    if t is not None: meet(w, t, n, 'nothing', [], inner, file)
    w.ill = was
    def gives(argument, live):
        within = put([('module', x, argument)], names)
        n = module(w, body, within, file, live)
        return n if t is None else meet(w, t, n, 'hidden', [], within, file)
    return Functor(x, s, names, gives, file)

def applied(w, f, argument, live):
    if not live:
        # names alone: the body was looked at
        meet(w, f.bound, argument, 'shown', [], f.names, f.file)
        was = w.ill
        n = f.gives(meet(w, f.bound, None, 'nothing', [], f.names, f.file), False)
        w.ill = was
        return n
    return f.gives(meet(w, f.bound, argument, 'shown', [], f.names, f.file), True)

def meet(w, s, m, how, given, names, file, own=None):
    """What a module type makes of a module: its types hidden or shown, or of none."""
    own = set() if own is None else own
    k, p = s.kind, s.parts
    if k == 'path':
        sig = thing_of_path(w, 'signature', s, names)
        return meet(w, sig.tree, m, how, given, sig.names, sig.file, own)
    if k == 'with':
        inner = meet(w, p[0], None, 'nothing', [], names, file)
        t = type_of(w, p[2], names)
        for i, x in enumerate(p[1].parts):
            inner = None if isinstance(inner, Functor) else find_in('type' if i + 1 == len(p[1].parts) else 'module', x, inner)
            if inner is None: refuse(p[1].at, 'no member %s' % x)
        return meet(w, p[0], m, how, [(p[1].parts, t)] + given, names, file, own)
    rows, seen = [], names
    for spec in p[0]:
        new = specified(w, spec, m, how, given, seen, file, own)
        rows += new
        seen = put([r for r in new if r[0] in ('type', 'module')], seen)
    return Members(rows)

def member(w, space, name, at, m):
    if m is None: return None
    t = None if isinstance(m, Functor) else find_in(space, name, m)
    if t is None: refuse(at, None if False else ('lacks', name))
    return t

def specified(w, spec, m, how, given, names, file, own):
    k, p = spec.kind, spec.parts
    if k == 'include': return meet(w, p[0], m, how, given, names, file, own).rows
    name = p[0]
    if k == 'val':
        v = member(w, 'value', name, spec.at, m)
        t = type_of(w, p[1], names)
        if m is None or how == 'nothing': return [('value', name, Value(t, lambda: 0))]
        if opened(t, own) != v.type: w.ill = True
        return [('value', name, Value(t, v.get))]
    if k == 'type':
        r = member(w, 'type', name, spec.at, m)
        gift = [t for path, t in given if path == [name]]
        if p[1] is not None:
            t = type_of(w, p[1], names)
            if m is not None and how != 'nothing' and opened(t, own) != r: w.ill = True
            return [('type', name, t)]
        if gift:
            if m is not None and how != 'nothing' and opened(gift[0], own) != r: w.ill = True
            return [('type', name, gift[0])]
        if m is None or how == 'nothing': return [('type', name, Hidden(name, None))]
        if how == 'shown': return [('type', name, r)]
        h = Hidden(name, r); own.add(h)
        return [('type', name, h)]
    if k == 'module':
        n = member(w, 'module', name, spec.at, m)
        inside = [(path[1:], t) for path, t in given if len(path) > 1 and path[0] == name]
        return [('module', name, meet(w, p[1], n, how, inside, names, file, own))]

# ---- declarations
SPACE = {'def': 'value', 'entry': 'value', 'type': 'type', 'module': 'module', 'signature': 'signature'}

def declared(w, d, names, file, live):
    k, p = d.kind, d.parts
    if k in ('def', 'entry'): return [('value', p[0], definition(w, d, names))]
    if k == 'type': return [('type', p[0], type_of(w, p[1], names))]
    if k == 'signature':
        meet(w, p[1], None, 'nothing', [], names, file)
        return [('signature', p[0], Signature(p[1], names, file))]
    if k == 'open':
        m = module(w, p[0], names, file, live)
        if isinstance(m, Functor): refuse(p[0].at, '%s is not bound' % ('.'.join(p[0].parts) if p[0].kind == 'path' else 'module'))
        return list(m.rows)
    if k == 'import': return list(imported(w, d.at, file, p[0]).rows)
    name, params, seal, body = p
    if params:
        x, s = params[0]
        for y, u in reversed(params[1:]): seal, body = None, Node('lambda', y, u, seal, body)
        return [('module', name, functor(w, x, s, seal, body, names, file, live))]
    if seal is not None: meet(w, seal, None, 'nothing', [], names, file)
    m = module(w, body, names, file, live)
    if seal is not None: m = meet(w, seal, m, 'hidden' if live else 'nothing', [], names, file)
    return [('module', name, m)]

def declarations(w, ds, names, file, live, top):
    exported, own = [], set()
    for d in ds:
        try:
            if d.kind in SPACE and not d.local:
                key = (SPACE[d.kind], d.parts[0])
                if key in own: refuse(d.name_at, '%s is bound twice' % d.parts[0])
                own.add(key)
            rows = declared(w, d, names, file, live)
        except Refused as e:
            if not top: raise
            w.refused.setdefault(file, e.args[0])
            rows = [(SPACE[d.kind], d.parts[0], Stub())] if d.kind in SPACE else [ANY]
        except Elsewhere:
            if not top: raise
            rows = [(SPACE[d.kind], d.parts[0], Stub())] if d.kind in SPACE else [ANY]
        names = put(rows, names)
        if not d.local and d.kind != 'import': exported += rows
    return exported, names

def path_of(file, text):
    folder = file.split('/')[:-1]
    out = []
    for s in folder + text.split('/'):
        if s == '.': continue
        if s == '..' and out and out[-1] not in ('', '..'): out.pop(); continue
        out.append(s)
    return '/'.join(out) + '.fut'

def imported(w, at, file, text):
    path = path_of(file, text)
    if path not in w.loaded:
        w.loaded[path] = Members(declarations(w, w.files[path], None, path, True, True)[0])
    return w.loaded[path]

def imports_in(ds):
    """The texts of all imports, in order."""
    found = []
    def walk(x):
        if isinstance(x, Node):
            if x.kind == 'import': found.append(x.parts[0])
            for y in x.parts: walk(y)
        elif isinstance(x, (list, tuple)):
            for y in x: walk(y)
    walk(ds)
    return found

def load_order(files, first):
    order = []
    def go(path):
        if path in order: return
        order.append(path)
        for t in imports_in(files[path]): go(path_of(path, t))
    go(first)
    return order

def leads_back(files, path):
    seen, todo = set(), [path_of(path, t) for t in imports_in(files[path])]
    while todo:
        x = todo.pop()
        if x == path: return True
        if x in seen: continue
        seen.add(x); todo += [path_of(x, t) for t in imports_in(files[x])]
    return False

def answer(files, first, arguments):
    """(status, output or line, place counts)"""
    order = load_order(files, first)
    for f in order:
        if leads_back(files, f): return 4, '%s imports itself' % f, True
    w = World(files)
    exported = Members(declarations(w, files[first], None, first, True, True)[0])
    for f in order:
        if f in w.refused:
            at, text = w.refused[f]
            if isinstance(text, tuple): text = 'the seal lacks %s' % text[1]
            return 4, (at, text), True
    if w.ill: return 5, 'no type', False
    main = find_in('value', 'main', Members([r for r in exported.rows]))
    v = main.get()
    for a in arguments: v = v(a)
    return 0, '%di64' % v if not isinstance(v, bool) else ('true' if v else 'false'), True

# ---- text
class Text:
    def __init__(self, file): self.file, self.out, self.line, self.column = file, [], 1, 1
    def word(self, s):
        at = (self.file, self.line, self.column)
        self.out.append(s); self.column += len(s)
        return at
    def space(self): self.word(' ')
    def end(self): self.out.append('\n'); self.line += 1; self.column = 1
    def __str__(self): return ''.join(self.out)

def write_type(t, te, tight=False):
    if te.kind == 'path': te.at = t.word('.'.join(te.parts)); return
    if te.kind == 'tuple':
        te.at = t.word('(')
        for i, x in enumerate(te.parts):
            if i: t.word(', ')
            write_type(t, x)
        t.word(')'); return
    if tight: t.word('(')
    write_type(t, te.parts[0], True); t.word(' -> '); write_type(t, te.parts[1])
    if tight: t.word(')')

def write_exp(t, e, tight=False):
    k, p = e.kind, e.parts
    if k == 'path': e.at = t.word('.'.join(p)); return
    if k == 'int': t.word('%di64' % p[0]); return
    if k == 'bool': t.word('true' if p[0] else 'false'); return
    if k == 'tuple':
        t.word('(')
        for i, x in enumerate(p):
            if i: t.word(', ')
            write_exp(t, x)
        t.word(')'); return
    if tight: t.word('(')
    if k == 'op': write_exp(t, p[1], True); t.word(' %s ' % p[0]); write_exp(t, p[2], True)
    elif k == 'if': t.word('if '); write_exp(t, p[0]); t.word(' then '); write_exp(t, p[1]); t.word(' else '); write_exp(t, p[2])
    elif k == 'let': t.word('let %s = ' % p[0]); write_exp(t, p[1]); t.word(' in '); write_exp(t, p[2])
    elif k == 'apply':
        write_exp(t, p[0], True)
        for x in p[1:]: t.space(); write_exp(t, x, True)
    if tight: t.word(')')

def write_sig(t, s):
    k, p = s.kind, s.parts
    if k == 'path': s.at = t.word('.'.join(p)); return
    if k == 'with':
        write_sig(t, p[0]); t.word(' with '); p[1].at = t.word('.'.join(p[1].parts)); t.word(' = '); write_type(t, p[2]); return
    s.at = t.word('{')
    for i, spec in enumerate(p[0]):
        if i: t.space()
        q = spec.parts
        if spec.kind == 'include': t.word('include '); write_sig(t, q[0]); continue
        t.word({'val': 'val ', 'type': 'type ', 'module': 'module '}[spec.kind]); spec.at = t.word(q[0])
        if spec.kind == 'val': t.word(': '); write_type(t, q[1])
        if spec.kind == 'type' and q[1] is not None: t.word(' = '); write_type(t, q[1])
        if spec.kind == 'module': t.word(': '); write_sig(t, q[1])
    t.word('}')

def write_module(t, m, tight=False):
    k, p = m.kind, m.parts
    if k == 'path': m.at = t.word('.'.join(p)); return
    if k == 'decs':
        m.at = t.word('{')
        for i, d in enumerate(p[0]):
            if i: t.space()
            write_dec(t, d)
        t.word('}'); return
    if tight: m.at = t.word('(')
    if k == 'apply':
        write_module(t, p[0], True)
        for a in p[1:]: t.space(); write_module(t, a, True)
        if not tight: m.at = p[0].at
    elif k == 'seal': write_module(t, p[0], True); t.word(' : '); write_sig(t, p[1]); m.at = m.at or p[0].at
    elif k == 'lambda':
        at = t.word('\\('); m.at = m.at or at; t.word('%s: ' % p[0]); write_sig(t, p[1]); t.word(')')
        if p[2] is not None: t.word(': '); write_sig(t, p[2])
        t.word(' -> '); write_module(t, p[3])
    elif k == 'import': at = t.word('import "%s"' % p[0]); m.at = m.at or at
    if tight: t.word(')')

def write_dec(t, d):
    if d.local: t.word('local ')
    k, p = d.kind, d.parts
    d.at = t.word({'def': 'def ', 'entry': 'entry ', 'type': 'type ', 'module': 'module ', 'signature': 'module type ', 'open': 'open ', 'import': 'import '}[k])
    if k == 'import': d.at = t.word('"%s"' % p[0]) and d.at; return
    if k == 'open': write_module(t, p[0]); return
    d.name_at = t.word(p[0])
    if k in ('def', 'entry'):
        for x, te in p[1]: t.word(' (%s: ' % x); write_type(t, te); t.word(')')
        t.word(': '); write_type(t, p[2]); t.word(' = '); write_exp(t, p[3])
    elif k == 'type': t.word(' = '); write_type(t, p[1])
    elif k == 'signature': t.word(' = '); write_sig(t, p[1])
    else:
        for x, s in p[1]: t.word(' (%s: ' % x); write_sig(t, s); t.word(')')
        if p[2] is not None: t.word(': '); write_sig(t, p[2])
        t.word(' = '); write_module(t, p[3])

def text_of(file, ds):
    t = Text(file)
    for d in ds: write_dec(t, d); t.end()
    return str(t)

# ---- drawing
def path(*xs): return Node('path', *xs)
def dec(kind, *parts, local=False):
    d = Node(kind, *parts); d.local = local; d.name_at = None
    return d

# no declared types
PLAIN = '--plain' in sys.argv
class Drawer:
    def __init__(self, r): self.r = r; self.fresh = 0
    def seen(self, space, names, deep=2):
        """Paths to all things of this space that are seen, with the things."""
        out, hidden, mods, n = [], set(), [], names
        while n:
            row, n = n
            if row is ANY or (row[0], row[1]) in hidden: continue
            hidden.add((row[0], row[1]))
            if isinstance(row[2], Stub): continue
            if row[0] == space: out.append(([row[1]], row[2]))
            if row[0] == 'module' and isinstance(row[2], Members): mods.append((row[1], row[2]))
        values = {x for (s, x) in hidden if s == 'value'}
        for x, m in mods:
            if space == 'value' and x in values: continue
            out += [([x] + p, t) for p, t in self.inside(space, m, deep - 1)]
        return out
    def inside(self, space, m, deep):
        out, hidden = [], set()
        for row in reversed(m.rows):
            if (row[0], row[1]) in hidden: continue
            hidden.add((row[0], row[1]))
            if isinstance(row[2], Stub): continue
            if row[0] == space: out.append(([row[1]], row[2]))
        if deep > 0:
            for row in reversed(m.rows):
                if row[0] == 'module' and isinstance(row[2], Members) and find_in('module', row[1], m) is row[2]:
                    out += [([row[1]] + p, t) for p, t in self.inside(space, row[2], deep - 1)]
        return out
    def type_exp(self, names, deep=1):
        """A written type and what it is."""
        r = self.r
        rows = [(path(*p), t) for p, t in self.seen('type', names)] + [(path('i64'), 'i64')] * 3 + [(path('bool'), 'bool')]
        rows = [x for x in rows if find('type', 'i64', names) is None or x[0].parts != ['i64']] or [(path('bool'), 'bool')]
        if deep and r.random() < 0.12:
            a, s = self.type_exp(names, 0); b, t = self.type_exp(names, 0)
            return (Node('to', a, b), to(s, t)) if r.random() < 0.6 else (Node('tuple', a, b), ('tuple', (s, t)))
        te, t = r.choice(rows)
        return path(*te.parts), t
    def written(self, t, names):
        """How this type may be written, or None."""
        for p, s in self.seen('type', names):
            if s is t or (s == t and self.r.random() < 0.5): return path(*p)
        if t in ('i64', 'bool'): return path(t) if find('type', t, names) is None else None
        if isinstance(t, tuple) and t[0] == 'to':
            a, b = self.written(t[1], names), self.written(t[2], names)
            return None if a is None or b is None else Node('to', a, b)
        if isinstance(t, tuple):
            parts = [self.written(x, names) for x in t[1]]
            return None if None in parts else Node('tuple', *parts)
        return None
    def exp(self, t, names, deep=3):
        """An expression of this type, or None."""
        r = self.r
        options = []
        for p, v in self.seen('value', names):
            s, args = v.type, []
            while True:
                if s == t: options.append((p, args[:]))
                if isinstance(s, tuple) and s[0] == 'to': args.append(s[1]); s = s[2]
                else: break
        r.shuffle(options)
        for p, args in options[:3]:
            if args and deep <= 0: continue
            if r.random() < 0.25 and t == 'i64': continue
            given = [self.exp(a, names, deep - 1 - len(args)) for a in args]
            if None in given: continue
            return path(*p) if not given else Node('apply', path(*p), *given)
        if t == 'i64':
            if deep > 0 and r.random() < 0.6:
                a, b = self.exp('i64', names, deep - 1), self.exp('i64', names, deep - 1)
                return Node('op', r.choice('+-*'), a, b)
            if deep > 0 and r.random() < 0.3:
                x = r.choice('xyz'); a = self.exp('i64', names, deep - 1)
                return Node('let', x, a, self.exp('i64', put([('value', x, Local('i64'))], names), deep - 1))
            return Node('int', r.randrange(20))
        if t == 'bool':
            if deep > 0 and r.random() < 0.5: return Node('op', '<', self.exp('i64', names, deep - 1), self.exp('i64', names, deep - 1))
            return Node('bool', r.random() < 0.5)
        if isinstance(t, tuple) and t[0] == 'tuple':
            parts = [self.exp(x, names, deep - 1) for x in t[1]]
            return None if None in parts else Node('tuple', *parts)
        for p, args in options:
            if not args: return path(*p)
        return None
    def definition(self, names, name=None, wanted=None):
        r = self.r
        name = name or r.choice(['a', 'b', 'c', 'f', 'g', 'h'])
        params, inner = [], names
        if wanted is not None:
            t = wanted
            while isinstance(t, tuple) and t[0] == 'to' and r.random() < 0.9:
                te = self.written(t[1], inner)
                if te is None: break
                x = r.choice('xyzuv') + str(len(params)); params.append((x, te)); inner = put([('value', x, Local(t[1]))], inner); t = t[2]
            te = self.written(t, inner)
            if te is None: return None
        else:
            for i in range(r.choice([0, 0, 1, 1, 2])):
                te, t = self.type_exp(inner); x = 'xyzuv'[i]; params.append((x, te)); inner = put([('value', x, Local(t))], inner)
            te, t = self.type_exp(inner)
        e = self.exp(t, inner)
        if e is None: return None
        return dec('def', name, params, te, e, local=False)
    def specs(self, w, names, file, deep=1):
        r, rows, seen = self.r, [], names
        for i in range(r.randrange(1, 5)):
            k = r.choice(['val', 'val', 'val', 'type', 'type', 'module', 'include'] if not PLAIN else ['val', 'val', 'val', 'module', 'include'])
            if k == 'val':
                te, t = self.type_exp(seen)
                if r.random() < 0.5: te = Node('to', self.type_exp(seen, 0)[0], te)
                s = Node('val', r.choice(['a', 'b', 'c', 'f', 'g', 'h']), te)
            elif k == 'type': s = Node('type', r.choice(['t', 'u', 'v']), self.type_exp(seen)[0] if r.random() < 0.3 else None)
            elif k == 'module' and deep: s = Node('module', r.choice(['m', 'n', 'p']), self.sig(w, seen, file, deep - 1))
            elif k == 'include' and deep:
                sigs = self.seen('signature', seen)
                if not sigs: continue
                s = Node('include', path(*r.choice(sigs)[0]))
            else: continue
            if s.kind != 'include' and any(x.kind == s.kind and x.parts[0] == s.parts[0] for x in rows): continue
            new = specified(w, s, None, 'nothing', [], seen, file, set())
            rows.append(s); seen = put([x for x in new if x[0] in ('type', 'module')], seen)
        return Node('specs', rows)
    def sig(self, w, names, file, deep=1):
        r = self.r
        sigs = self.seen('signature', names)
        if sigs and r.random() < 0.6:
            s = path(*r.choice(sigs)[0])
            if r.random() < 0.25:
                ms = meet(w, s, None, 'nothing', [], names, file)
                types = [row[1] for row in ms.rows if row[0] == 'type' and isinstance(row[2], Hidden)]
                if types: return Node('with', s, path(r.choice(types)), self.type_exp(names, 0)[0])
            return s
        return self.specs(w, names, file, deep)
    def meeting(self, w, s, names, file):
        """Declarations that meet a module type, if it goes."""
        r, ds, now, given = self.r, [], names, {}
        ms = meet(w, s, None, 'nothing', [], names, file)
        return self.meeting_of(w, ms, s, names, file, {})
    def meeting_of(self, w, ms, s, names, file, map_):
        r, ds, now = self.r, [], names
        def real(t):
            if isinstance(t, Hidden): return map_.get(t, t)
            if isinstance(t, tuple): return (t[0],) + tuple(real(x) for x in t[1:]) if t[0] == 'to' else ('tuple', tuple(real(x) for x in t[1]))
            return t
        done = set()
        for row in ms.rows:
            if (row[0], row[1]) in done: continue
            done.add((row[0], row[1]))
            if row[0] == 'type':
                if isinstance(row[2], Hidden) and row[2] not in map_ and row[2].hides is None and not any(row[2] is t for _, t in self.seen('type', names)):
                    te, t = self.type_exp(now); map_[row[2]] = t
                else: te = self.written(real(row[2]), now)
                if te is None: return None
                d = dec('type', row[1], te)
            elif row[0] == 'value':
                d = self.definition(now, row[1], real(row[2].type))
                if d is None: return None
            else:
                inner = self.meeting_of(w, row[2], s, now, file, map_) if isinstance(row[2], Members) else None
                if inner is None: return None
                d = dec('module', row[1], [], None, Node('decs', inner))
            was = w.ill
            rows = declared(w, d, now, file, False)
            if w.ill and not was: w.ill = was; return None
            ds.append(d); now = put(rows, now)
        return ds
    def module(self, w, names, file, deep):
        r = self.r
        if deep <= 0 or r.random() < 0.2:
            mods = [p for p, m in self.seen('module', names) if isinstance(m, Members)]
            if mods: return path(*r.choice(mods))
        k = r.random()
        functors = [(p, m) for p, m in self.seen('module', names) if isinstance(m, Functor)]
        if functors and k < 0.45:
            p, f = r.choice(functors)
            ds = self.meeting(w, f.bound, names if r.random() < 2 else None, file) if self.reaches(w, f, names, file) else None
            if ds is not None: return Node('apply', path(*p), Node('decs', ds))
        return Node('decs', self.decs(w, names, file, deep - 1, r.randrange(1, 5))[0])
    def reaches(self, w, f, names, file):
        try: meet(w, f.bound, None, 'nothing', [], names, file)
        except (Refused, Elsewhere): return False
        return True
    def dec(self, w, names, file, deep):
        r = self.r
        k = r.choice(['def'] * 5 + ([] if PLAIN else ['type', 'type']) + ['module', 'module', 'module', 'functor', 'functor', 'signature', 'open'])
        if k == 'def': return self.definition(names)
        if k == 'type': return dec('type', r.choice(['t', 'u', 'v']), self.type_exp(names)[0])
        if k == 'signature': return dec('signature', r.choice(['S', 'T']), self.specs(w, names, file))
        if k == 'open':
            mods = [p for p, m in self.seen('module', names) if isinstance(m, Members)]
            return dec('open', path(*r.choice(mods))) if mods else None
        if deep <= 0: return self.definition(names)
        name = r.choice(['m', 'n', 'p', 'q'])
        if k == 'functor':
            params, inner = [], names
            for i in range(r.choice([1, 1, 2])):
                s = self.sig(w, inner, file); x = 'ab'[i]
                params.append((x, s)); inner = put([('module', x, meet(w, s, None, 'nothing', [], inner, file))], inner)
            if r.random() < 0.3:
                t = self.sig(w, inner, file); ds = self.meeting(w, t, inner, file)
                if ds is None: return None
                return dec('module', r.choice(['F', 'G']), params, t, Node('decs', ds))
            return dec('module', r.choice(['F', 'G']), params, None, Node('decs', self.decs(w, inner, file, deep - 1, r.randrange(1, 4))[0]))
        if r.random() < 0.5:
            t = self.sig(w, names, file); ds = self.meeting(w, t, names, file)
            if ds is not None: return dec('module', name, [], t, Node('decs', ds))
        return dec('module', name, [], None, self.module(w, names, file, deep))
    def decs(self, w, names, file, deep, many):
        r, out, own = self.r, [], set()
        for _ in range(many):
            d = self.dec(w, names, file, deep)
            if d is None: continue
            d.local = r.random() < 0.12
            if d.kind in SPACE and not d.local:
                if (SPACE[d.kind], d.parts[0]) in own: continue
            was = w.ill
            try: rows = declared(w, d, names, file, True)
            except (Refused, Elsewhere): w.ill = was; continue
            if w.ill and not was: w.ill = was; continue
            if d.kind in SPACE and not d.local: own.add((SPACE[d.kind], d.parts[0]))
            out.append(d); names = put(rows, names)
        return out, names
    def program(self):
        r = self.r
        files, w = {}, World({})
        paths = ['t.fut'] + r.sample(['a.fut', 'lib/b.fut', 'lib/c.fut'], r.choice([0, 1, 1, 2, 2, 3]))
        order = list(reversed(paths))
        for i, file in enumerate(order):
            ds, names = [], None
            for other in order[:i]:
                if r.random() < 0.7 or (file == 't.fut' and other == order[i - 1]):
                    text = os.path.relpath(other, os.path.dirname(file) or '.')[:-4]
                    d = dec('import', text) if r.random() < 0.8 else dec('module', r.choice(['m', 'n']), [], None, Node('import', text))
                    w.files = files
                    rows = declared(w, d, names, file, True); ds.append(d); names = put(rows, names)
            more, names = self.decs(w, names, file, 2, r.randrange(2, 7))
            used = {(SPACE[d.kind], d.parts[0]) for d in ds if d.kind in SPACE}
            ds += [d for d in more if not (d.kind in SPACE and not d.local and (SPACE[d.kind], d.parts[0]) in used)]
            if file == 't.fut':
                e = Node('op', '+', self.exp('i64', put([('value', 'x', Local('i64'))], names), 4), path('x'))
                if find('type', 'i64', names) is not None: return None
                ds.append(dec('def', 'main', [('x', path('i64'))], path('i64'), e))
            files[file] = ds
        return files
    def broken(self, files):
        """One change of a name."""
        r = self.r
        spots = []
        def walk(x, d):
            if isinstance(x, Node):
                if x.kind == 'path': spots.append((x.parts, r.randrange(len(x.parts))))
                if x.kind in ('val', 'type', 'module', 'def', 'signature') and x.parts[0] != 'main': spots.append((x.parts, 0))
                for y in x.parts: walk(y, d)
            elif isinstance(x, (list, tuple)):
                for y in x: walk(y, d)
        for ds in files.values(): walk(ds, 0)
        parts, i = r.choice(spots)
        parts[i] = r.choice(['a', 'b', 'c', 'f', 'g', 'm', 'n', 'p', 't', 'u', 'S', 'T', 'F', 'zz'])

def drawn(seed):
    r = random.Random(seed)
    files = Drawer(r).program()
    if files is None: return None
    if r.random() < 0.35: Drawer(r).broken(files)
    texts = {f: text_of(f, ds) for f, ds in files.items()}
    x = r.randrange(-50, 50)
    try: status, told, exact = answer(files, 't.fut', [x])
    except (KeyError, RecursionError): return None
    if status == 4 and not isinstance(told, str):
        (file, line, column), text = told
        told = '%s:%d:%d: %s' % (file, line, column, text)
    return texts, str(x), status, told, exact

def run(exe, texts, given):
    with tempfile.TemporaryDirectory() as folder:
        for f, t in texts.items():
            os.makedirs(os.path.dirname(os.path.join(folder, f)) or folder, exist_ok=True)
            open(os.path.join(folder, f), 'w').write(t)
        p = subprocess.run([exe, 'run', 't.fut'], input=given, capture_output=True, text=True, cwd=folder, timeout=60)
        return p.returncode, p.stdout.strip(), p.stderr.strip()

def row(texts, given, status, told):
    lines = ['run run t.fut']
    for f in sorted(texts, key=lambda f: (f != 't.fut', f)):
        ls = texts[f].rstrip('\n').split('\n')
        lines += ['file ' + f] + (['| ' + l for l in ls[:-1]] + ['> ' + ls[-1]] if texts[f].strip() else [])
    return '\n'.join(lines + ['input', '> ' + given, 'status %d' % status, *(['out', '| ' + told] if status == 0 else ['err', '| futhark: ' + told]), ''])

def main():
    lo, hi = int(sys.argv[1]), int(sys.argv[2])
    exe = sys.argv[sys.argv.index('--exe') + 1] if '--exe' in sys.argv else None
    counts = {}
    for seed in range(lo, hi):
        try: d = drawn(seed)
        except Elsewhere: continue
        if d is None: continue
        texts, given, status, told, exact = d
        counts[status] = counts.get(status, 0) + 1
        if '--rows' in sys.argv and exact and status in (0, 4) and len(texts) > 1: print(row(texts, given, status, told))
        if '--show' in sys.argv:
            for f, t in texts.items(): print('-- %s\n%s' % (f, t), end='')
            print('== %s: %d %s\n' % (given, status, told))
        if exe:
            code, out, err = run(exe, texts, given)
            want = (status, told if status == 0 else '', '' if status == 0 else 'futhark: ' + told)
            if code != status or (exact and (out, err) != want[1:]): print('DIFFERS', seed, want, (code, out, err))
    print(counts, file=sys.stderr)

if __name__ == '__main__': main()
