#!/usr/bin/env python3
"""Runs definitions of specs/ as Python, to hold them to vectors before anything is proved of them.

    import antt_run as a
    a.builtin('H', 1, lambda x: tuple(hashlib.sha256(bytes(x)).digest()))   # what stays Python's, with its number of arguments
    a.load('crates/NAME/specs/Base.antt'); a.load('crates/NAME/specs/Judge.antt')   # in order of use
    a.run(lambda: print(a.call('judge', key, transcript)))                  # lists are tuples of numbers

It reads a subset: `name : type` and clauses with patterns on zero, suc, [], ::, true, false and constructors; records, data,
`module _ (x : T) where` sections, lambda, let, pick, the operators of PREC. `load(path, stop)` ends at a line that holds `stop`,
`load(path, None, names)` takes only those names, `enum(path, name)` the constructors of an enum of the code. Tests of a `test => number` list are lazy, all else is strict. A definition that
it cannot read stops it; a result says what the definition says only as far as the builtins say what theirs do.
"""
import functools, re, sys, threading
# ---- values
class Fn:
    def __init__(s, ar, f, args=(), name=None): s.ar, s.f, s.args, s.name = ar, f, args, name
    def __hash__(s): return hash((s.name, s.args)) if s.name else id(s)
    def __eq__(s, o): return s is o or (s.name is not None and isinstance(o, Fn) and s.name == o.name and s.args == o.args)
def ap(f, *xs):
    while xs:
        need = f.ar - len(f.args)
        if len(xs) < need: return Fn(f.ar, f.f, f.args + xs, f.name)
        r = f.f(*(f.args + xs[:need])); xs = xs[need:]; f = r
    return f
class Rec:
    def __init__(s, **k): s.__dict__.update(k)
class Lazy:
    def __init__(s, f): s.f, s.v = f, None
    def get(s):
        if s.v is None: s.v = s.f()
        return s.v
def force(x): return x.get() if isinstance(x, Lazy) else x
class Con:
    def __init__(s, n, *a): s.n, s.a = n, a
    def __eq__(s, o): return s.n == o.n and s.a == o.a
    def __hash__(s): return hash((s.n, s.a))
    def __repr__(s): return f"{s.n}{s.a}"
def get_or(x, i, d): return x[i] if i < len(x) else d
def set_at(x, i, v): return x[:i] + (v,) + x[i + 1:] if i < len(x) else x
G = {}        # name -> Fn or value
AR = {}       # name -> arity
CONS = {}     # constructor -> arity
HERE = {}     # those that the file at hand uses or declares
def builtin(n, ar, f): G[n] = Fn(ar, f, (), n); AR[n] = ar
# Words of std's Prelude; those of a line are one thing there.
builtin('length', 1, len); builtin('take', 2, lambda n, x: x[:n]); builtin('drop', 2, lambda n, x: x[n:])
for n in ('get_or', 'slice_index_or'): builtin(n, 3, get_or)
for n in ('set', 'slice_set'): builtin(n, 3, set_at)
for n in ('eqb', 'nat_eq'): builtin(n, 2, lambda a, b: a == b)
for n in ('ltb', 'nat_lt'): builtin(n, 2, lambda a, b: a < b)
for n in ('leb', 'nat_le'): builtin(n, 2, lambda a, b: a <= b)
builtin('slice_index', 2, lambda x, i: get_or(x, i, 0)); builtin('not', 1, lambda a: not a); builtin('map', 2, lambda f, x: tuple(ap(f, y) for y in x))
builtin('suc', 1, lambda x: x + 1)
# ---- tokens and expressions
# A projection is written tight, as in `K.q` and `(f x).q`; another dot ends the names of a λ.
TOK = re.compile(r"(?P<proj>(?<=[^\s({};,.])\.[^\s(){};,.]+)|(?P<p>[(){};,.])|(?P<n>[^\s(){};,.]+)")
def toks(s): return [(m.lastgroup, m.group()) for m in TOK.finditer(s)]
PREC = {'||': (30, 'l'), '&&': (35, 'l'), '==': (40, 'l'), '+': (65, 'l'), '-': (65, 'l'), '++': (65, 'l'), '∷': (67, 'r'), '*': (70, 'l'), '/': (70, 'l'), '%': (70, 'l'), '⇒': (70, 'l'), '^': (75, 'r')}
PY = {}
def py(n):
    if n not in PY: PY[n] = f"v{len(PY)}_" + re.sub(r'[^A-Za-z0-9]', '', n)
    return PY[n]
class P:
    def __init__(s, t, env): s.t, s.i, s.env = t, 0, env   # env: name -> ('local',) or ('section', params)
    def pk(s): return s.t[s.i][1] if s.i < len(s.t) else None
    def kind(s): return s.t[s.i][0] if s.i < len(s.t) else None
    def nx(s): s.i += 1; return s.t[s.i - 1][1]
    def ex(s, x): assert s.nx() == x, (x, s.t[max(0, s.i - 6):s.i + 3])
    def expr(s, mn=0):
        if s.pk() == 'λ': return s.lam()
        if s.pk() == 'let': return s.let()
        a = s.app()
        while s.pk() in PREC:
            op = s.pk(); p, as_ = PREC[op]
            if p < mn: break
            s.nx(); b = s.expr(p + (as_ == 'l'))
            a = {'+': f'({a}+{b})', '-': f'max({a}-{b},0)', '*': f'({a}*{b})', '/': f'({a}//{b})', '%': f'({a}%{b})', '^': f'({a}**{b})', '++': f'({a}+{b})', '∷': f'(({a},)+{b})', '==': f'({a}=={b})', '&&': f'({a} and {b})', '||': f'({a} or {b})', '⇒': f"Con('⇒',Lazy(lambda: {a}),{b})"}[op]
        return a
    def lam(s):
        s.nx(); ns = []
        while s.pk() != '.': ns.append(s.nx())
        s.nx(); old = dict(s.env)
        for n in ns: s.env[n] = ('local',)
        b = s.expr(); s.env.clear(); s.env.update(old)
        return f"Fn({len(ns)},lambda {','.join(map(py, ns))}:{b})"
    def let(s):
        s.nx(); n = s.nx(); s.ex('='); e = s.expr(); s.ex('in'); old = dict(s.env); s.env[n] = ('local',); b = s.expr(); s.env.clear(); s.env.update(old)
        return f"(lambda {py(n)}:{b})({e})"
    def atom(s):
        k, v = s.t[s.i]
        if v == '(':
            s.nx(); e = s.expr(); s.ex(')'); return ('e', s.fields(f'({e})'))
        if v == 'record':
            s.nx(); s.ex('{'); fs = []
            while s.pk() != '}':
                n = s.nx(); s.ex('='); fs.append(f"{py(n)}={s.expr()}")
                if s.pk() == ';': s.nx()
            s.nx(); return ('e', f"Rec({','.join(fs)})")
        s.nx()
        if v == '[]': return ('e', '()')
        if v == 'true': return ('e', 'True')
        if v == 'false': return ('e', 'False')
        if v == 'zero': return ('e', '0')
        if re.fullmatch(r'\d+|0x[0-9a-f]+', v): return ('e', v)
        return ('e', s.fields(s.head(('n', v), []))) if s.kind() == 'proj' else ('n', v)
    def fields(s, e):
        while s.kind() == 'proj': e = f"({e}).{py(s.nx()[1:])}"
        return e
    def head(s, head, args):
        if head[0] == 'e': return f"ap({head[1]},{','.join(args)})" if args else head[1]
        n = head[1]; e = s.env.get(n)
        if e == ('local',): return f"ap({py(n)},{','.join(args)})" if args else py(n)
        if e: args = [py(x) for x in e[1]] + args; full = e[2]
        else: full = n
        if n == 'pick' and len(args) >= 3:
            r = f"({args[1]} if {args[0]} else {args[2]})"; rest = args[3:]
            return f"ap({r},{','.join(rest)})" if rest else r
        if n in HERE:
            assert len(args) == HERE[n], n
            return f"Con({n!r}{''.join(',' + a for a in args)})"
        ar = AR[full]
        g = f"G[{full!r}]"
        if ar == 0: r = f"{g}()"; return f"ap({r},{','.join(args)})" if args else r
        return f"ap({g},{','.join(args)})" if args else g
    def app(s):
        head = s.atom(); args = []
        while True:
            v = s.pk()
            if v is None or v in PREC or v in (')', '}', ';', ',', '.', 'in', '='): break
            if v in ('λ', 'let'): args.append(s.expr()); break
            a = s.atom(); args.append(s.head(a, []))
        return s.head(head, args)
# ---- patterns: returns (tests, binds) over a python expression
def pats(t):
    out = []; i = 0
    while i < len(t):
        if t[i][1] == '(':
            d = 1; j = i + 1
            while d: d += {'(': 1, ')': -1}.get(t[j][1], 0); j += 1
            out.append(t[i + 1:j - 1]); i = j
        else: out.append([t[i]]); i += 1
    return out
def match(t, x):
    names = [v for _, v in t]; depth = 0
    for i, (k, v) in enumerate(t):
        depth += {'(': 1, ')': -1}.get(v, 0)
        if v == '∷' and depth == 0:
            a, b = match(t[:i], f'{x}[0]'), match(t[i + 1:], f'{x}[1:]')
            return [f'len({x})>0'] + a[0] + b[0], a[1] + b[1]
    depth = 0
    for i, (k, v) in enumerate(t):
        depth += {'(': 1, ')': -1}.get(v, 0)
        if i and v in HERE and depth == 0 and v in PREC:
            a, b = match(t[:i], f'{x}.a[0]'), match(t[i + 1:], f'{x}.a[1]')
            return [f'{x}.n=={v!r}'] + a[0] + b[0], a[1] + b[1]
    if len(t) == 1:
        v = t[0][1]
        if v == '[]': return [f'len({x})==0'], []
        if v == 'zero': return [f'{x}==0'], []
        if v == 'true': return [f'force({x}) is True'], []
        if v == 'false': return [f'force({x}) is False'], []
        if v in HERE: return [f'{x}.n=={v!r}'], []
        return [], [(v, x)]
    if t[0][1] == '(' : return match(t[1:-1], x) if len(pats(t)) == 1 else None
    if names[0] == 'suc':
        r = match(pats(t[1:])[0], f'({x}-1)'); return [f'{x}>0'] + r[0], r[1]
    c = names[0].strip('◌'); ts, bs = [f'{x}.n=={c!r}'], []
    for i, q in enumerate(pats(t[1:])):
        r = match(q, f'{x}.a[{i}]'); ts += r[0]; bs += r[1]
    return ts, bs
def enum(path, name):
    """The constructors of an enum that the code declares."""
    body = re.search(r'pub enum %s \{(.*?)\n\}' % name, open(path).read(), re.S).group(1)
    for c, fields in re.findall(r'(\w+)(?:\((.*?)\))?,', body): CONS[c] = len(fields.split(',')) if fields else 0
def load(path, stop=None, only=None):
    src = open(path).read()
    other = {y: x for x, y in re.findall(r'([^\s{},]+) as ([^\s{},]+)[,}]', src) if x in CONS}   # constructors used by another name
    if stop: src = src.split(stop)[0]
    lines = [l for l in src.split('\n') if l.strip() and not l.strip().startswith('--')]
    used = {x.strip('◌') for u in re.findall(r'^(?:pub )?use ([^\n{]*(?:\{[^}]*\})?)', src, re.M) for x in re.findall(r'[^\s{},]+', u)}
    HERE.clear(); HERE.update({c: n for c, n in CONS.items() if c in used})
    # logical lines by indentation
    secs = []  # (indent, params, names)
    i = 0; defs = {}
    def ind(l): return len(l) - len(l.lstrip())
    while i < len(lines):
        l = lines[i]; n = ind(l); st = l.strip()
        while secs and n <= secs[-1][0]:
            c = secs.pop()
            if secs: secs[-1][2].update(c[2])
        if st.startswith(('use ', 'pub use ')):
            while '{' in l and '}' not in lines[i]: i += 1
            i += 1; continue
        if st.startswith(('infix', 'unfolding ', 'pub ruleset', 'ruleset', 'open ')): i += 1; continue
        j = i + 1
        if st.startswith('module _'):
            ps = [x for g in re.findall(r'\(([^:()]*) :', st) for x in g.split()]
            secs.append((n, ps, {})); i += 1; continue
        while j < len(lines) and (ind(lines[j]) > n or lines[j].strip() == '}'): j += 1
        body = ' '.join(x.strip() for x in lines[i:j])
        if re.match(r'pub (data|record) ', st):
            if st.startswith('pub data'):
                for x in lines[i + 1:j]:
                    m = re.match(r'(\S+) : (.*)', x.strip())
                    CONS[m.group(1).strip('◌')] = HERE[m.group(1).strip('◌')] = m.group(2).count('→')
            i = j; continue
        m = re.match(r'((unfoldable|abbrev) )?(pub )?(\S+) : ', body)
        if m and ' = ' not in body.split(' : ')[0]:
            nm = m.group(4); nest = [p for s in secs for p in s[1]]
            defs[nm] = (nest, [])
            if secs: secs[-1][2][nm] = True
            cur = (nm, {x: ('section', [p for s in secs[:k + 1] for p in s[1]], x) for k, s in enumerate(secs) for x in s[2]})
            i = j; continue
        t = [(k, other.get(v, v)) for k, v in toks(body)]; eq = next((k for k, (a, v) in enumerate(t) if v == '='), None)
        nm = t[0][1]
        if only and nm not in only: i = j; continue
        if eq is None: raise Exception((path, body))
        defs[nm][1].append((t[1:eq], t[eq + 1:], dict(cur[1]) if cur[0] == nm else None, [p for s in secs for p in s[1]]))
        i = j
    for nm, (nest, cl) in defs.items():
        if only and nm not in only: continue
        if nm in G and nm in ('pick',): continue
        AR[nm] = len(nest) + len(pats(cl[0][0]))
    for nm, (nest, cl) in defs.items():
        if only and nm not in only: continue
        k = len(pats(cl[0][0])); args = [py(p) for p in nest] + [f'a{q}' for q in range(k)]
        code = f"def f({','.join(args)}):\n"
        for pt, ex, env, _ in cl:
            ts, bs = [], []
            for q, p in enumerate(pats(pt)):
                r = match(p, f'a{q}'); ts += r[0]; bs += r[1]
            e = dict(env or {}); e.update({p: ('local',) for p in nest}); e.update({b: ('local',) for b, _ in bs})
            pr = P(ex, e); body = pr.expr(); assert pr.i == len(ex), (nm, ex[pr.i:])
            code += f"  if {' and '.join(ts) or 'True'}:\n" + ''.join(f"    {py(b)}={x}\n" for b, x in bs) + f"    return {body}\n"
        code += f"  raise ValueError({'no clause fits: ' + nm!r})\n"
        ns = dict(G=G, Fn=Fn, ap=ap, Rec=Rec, Con=Con, Lazy=Lazy, force=force)
        exec(code, ns)
        f = functools.lru_cache(None)(ns['f'])
        G[nm] = Fn(AR[nm], f, (), nm) if AR[nm] else f
AR['pick'] = 3; G['pick'] = Fn(3, lambda t, a, b: a if t else b, (), 'pick')
def call(name, *args): return ap(G[name], *args)
def clear():
    """Forgets what was computed: between two vectors."""
    for f in G.values():
        g = f.f if isinstance(f, Fn) else f
        if hasattr(g, 'cache_clear'): g.cache_clear()
def run(main):
    """Runs main() with room for deep recursion."""
    sys.setrecursionlimit(10 ** 6); threading.stack_size(1 << 29)
    t = threading.Thread(target=main); t.start(); t.join()
