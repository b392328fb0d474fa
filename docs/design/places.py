#!/usr/bin/env python3
# Counts for docs/design/PLACES.md and docs/DESIGN-PASS.md. Reads the sources alone.
# places.py apart | twins | loops | casts | groups | facts | params | switches [ROOT]
import os, re, sys
from collections import OrderedDict, defaultdict
ROOT = (sys.argv[2] if len(sys.argv) > 2 else os.path.join(os.path.dirname(os.path.abspath(__file__)), '..', '..')).rstrip('/') + '/'


def crates():
    for l in open(ROOT + 'crates.txt'):
        l = l.strip()
        if l and not l.startswith('#'):
            yield l.split(':')[0].split()[0]


def files(c):
    fs = [os.path.join(d, f) for d, _, ff in os.walk(ROOT + 'crates/%s/src' % c) for f in ff if f.endswith('.rt')]
    return sorted(fs, key=lambda f: (os.path.basename(f) not in ('lib.rt', 'main.rt'), f))


def split_top(s, seps):
    out, d, cur = [], 0, ''
    for ch in s:
        d += (ch in '([{<' if seps == ',' else ch in '([{') - (ch in ')]}>' if seps == ',' else ch in ')]}')
        if ch in seps and d == 0:
            out.append(cur.strip()); cur = ''
        else:
            cur += ch
    return [x for x in out + [cur.strip()] if x]


class Fn:
    pass


def functions(c):
    for f in files(c):
        L = open(f).read().split('\n')
        i = 0
        while i < len(L):
            m = re.match(r'^( *)(?:pub(?:\(crate\))? )?((?:unsafe )?extern "C" )?fn (\w+)(<.*?>)?\(', L[i])
            if not m:
                i += 1
                continue
            fn = Fn()
            fn.crate, fn.file, fn.line, fn.name = c, os.path.relpath(f, ROOT + 'crates'), i + 1, m.group(3)
            fn.req, fn.ens, sig, j = [], [], '', i
            while True:
                l = L[j].rstrip()
                ms = re.match(r'^\s+(requires|ensures)(\s+\w+)? \{(.*)\};?$', l)
                if ms and j > i:
                    (fn.req if ms.group(1) == 'requires' else fn.ens).append(ms.group(3).strip())
                    if l.endswith(';'):
                        break
                elif l.strip() in ('{', '{}'):
                    break
                elif j > i and l.strip().endswith('};') or l.endswith(';'):
                    sig += ' ' + l.rstrip(';') if j == i else ''  # of a trait, with no body
                    break
                elif l.endswith('{'):
                    sig += ' ' + l[:-1]
                    break
                else:
                    sig += ' ' + l.strip()
                j += 1
            sig = re.sub(r'^pub\(crate\) ', '', sig.strip())
            k = sig.index('(', sig.index(m.group(4)) + len(m.group(4)) if m.group(4) else 0)
            d = 0
            for e in range(k, len(sig)):
                d += (sig[e] == '(') - (sig[e] == ')')
                if d == 0:
                    break
            fn.params = [tuple(x.strip() for x in p.split(':', 1)) for p in split_top(sig[k + 1:e], ',') if ':' in p]  # without self
            fn.params = [(a.replace('mut ', ''), b.replace("&'a ", '&')) for a, b in fn.params]
            mr = re.search(r'->\s*(.+)$', sig[e + 1:])
            fn.ret = mr.group(1).strip() if mr else ''
            fn.bstart = j + 2
            b = j
            if L[j].rstrip().endswith((';', '{}')):
                fn.body = []
            else:
                while L[j] != m.group(1) + '}':
                    j += 1
                fn.body = [l[len(m.group(1)):] for l in L[b + 1:j]]
            yield fn
            i = j + 1


def every():
    for c in crates():
        yield from functions(c)


def at(f):
    return '%s:%d  %s' % (f.file, f.line, f.name)


def apart():
    """Functions that take an own enum of the shape of Option or Result apart."""
    V = (r'(U64Answer|U32Answer|U16Answer|I64Answer|I32Answer|Signed|Row|Made|NumberAnswer|Power|DurationAnswer|FiguresAnswer|TimeAnswer|TextAnswer|YmdAnswer|'
         r'WeekdayAnswer|LengthAnswer|DateAnswer|RowAnswer|Opened|NameAnswer|PeriodAnswer|Head|Verdict|Found|OutlineAnswer|SheetAnswer|FloatAnswer|MinutesAnswer|'
         r'MonthAnswer|RuleAnswer|Step|RangeAnswer|KindAnswer|ConstraintAnswer|WorkingTimeAnswer|PlaceAnswer|CalendarAnswer|KeptAnswer|IdsMade|LinkFate|Base|'
         r'DayAnswer|ReadAnswer|Next)::')
    n = one = 0
    for f in every():
        t = '\n'.join(f.body)
        if re.search(r'^\s*' + V + r'\w+[^=\n]*=>', t, re.M) or re.search(r'let ' + V + r'\w+[^=\n]*= ', t):
            b = [l for l in f.body if l.strip()]
            single = re.match(r'^    match ', b[0]) is not None and sum(1 for l in b if re.match(r'^    \S', l)) == 2
            n += 1; one += single
            print(at(f), '(the whole body)' if single else '')
    print(n, 'functions,', one, 'of them one match and nothing else')


def twins():
    """Functions with equal bodies, once types and literals are replaced (names kept, then names replaced)."""
    KW = set('if else while loop let mut return match true false as continue break in for'.split())

    def norm(f, keep):
        par, names, out = {p[0] for p in f.params}, {}, []
        for t in re.findall(r'b?"[^"]*"|b\'.\'|0x[0-9A-Fa-f_]+|\d[\d_.e]*|[A-Za-z_]\w*(?:::[A-Za-z_]\w*)*|[^\sA-Za-z0-9_]', '\n'.join(re.sub(r'//.*', '', l) for l in f.body)):
            if re.match(r'b?"|\d|0x|b\'', t): out.append('#')
            elif t in KW: out.append(t)
            elif t in ('u8', 'u16', 'u32', 'u64', 'usize', 'i32', 'i64', 'f64'): out.append('TY')
            elif re.match(r'[A-Z]', t): out.append('T')
            elif re.match(r'[a-z_]', t): out.append(('p' if t in par else t) if keep else 'F' if '::' in t else names.setdefault(t, 'v%d' % len(names)))
            else: out.append(t)
        return ' '.join(out)
    for keep in (True, False):
        G = defaultdict(list)
        for f in every():
            if f.crate not in ('probe_c', 'mspdi_c'):
                n = norm(f, keep)
                if len(n.split()) >= 6: G[n].append(f)
        gs = [g for g in G.values() if len(g) >= 2]
        print('%s: %d groups of %d functions' % ('names of functions kept' if keep else 'names replaced', len(gs), sum(map(len, gs))))
        for g in gs: print('  ' + ' '.join('%s:%d:%s' % (f.file.replace('/src/', '/'), f.line, f.name) for f in g))


def loops():
    for f in every():
        for k, l in enumerate(f.body):
            if re.match(r'^\s*(while|loop|for)\b', l): print('%s:%d  %s  %s' % (f.file, f.bstart + k, f.name, l.strip()))


def casts():
    n = k = 0
    for f in every():
        cs = OrderedDict()
        for l in f.body:
            for t in re.findall(r'\bas (u8|u16|u32|u64|usize|i32|i64|f64)\b', re.sub(r'//.*', '', l)): cs[t] = cs.get(t, 0) + 1
        if cs:
            n += 1; k += sum(cs.values())
            print('%s  %s' % (at(f), ', '.join('as %s%s' % (t, '' if c == 1 else ' %d times' % c) for t, c in cs.items())))
    print(n, 'functions,', k, 'casts')


def groups():
    """Groups of two or more parameters (name: type) that stand in three or more functions of a crate, each as large as it can be."""
    total = 0
    for c in crates():
        F = list(functions(c))
        S = [(frozenset('%s: %s' % p for p in f.params), f) for f in F]
        base = {s for s, _ in S if len(s) >= 2}
        closed, front = set(base), set(base)
        while front:
            front = {a & b for a in front for b in base if len(a & b) >= 2} - closed
            closed |= front
        pos = defaultdict(list)
        for f in F:
            for k, p in enumerate(f.params): pos['%s: %s' % p].append(k)
        rows = [(sum(1 for s, _ in S if g <= s), g) for g in closed]
        rows = sorted([r for r in rows if r[0] >= 3], key=lambda r: (-r[0], -len(r[1]), sorted(r[1])))
        for n, g in rows: print('%s  %d  (%s)' % (c, n, ', '.join(sorted(g, key=lambda x: (sum(pos[x]) / len(pos[x]), x)))))
        total += len(rows)
    print(total, 'groups')


def strip(o):
    while o.startswith('(') and o.endswith(')'):
        d = 0
        for i, ch in enumerate(o):
            d += (ch == '(') - (ch == ')')
            if d == 0 and i < len(o) - 1: return o
        o = o[1:-1].strip()
    return o


def facts():
    """Facts in three or more functions of a crate: of requires; premises and parts of ensures; and spec functions of the parameters in any contract."""
    order = {c: i for i, c in enumerate(crates())}

    def show(title, D):
        rows = sorted([(c, b, v) for (c, b), v in D.items() if len(v) >= 3], key=lambda r: (order[r[0]], -len(r[2])))
        print('%s: %d' % (title, len(rows)))
        for c, b, v in rows: print('%s  %d  %s  | %s' % (c, len(v), b, ' '.join(v)))
    R, RS, P, C, T = (OrderedDict() for _ in range(5))
    for f in every():
        typ = dict(f.params); typ['result'] = f.ret
        seen = set()

        def add(D, key, tag):
            if (tag, key) not in seen:
                seen.add((tag, key)); D.setdefault((f.crate, key), []).append(f.name)
        for r in f.req:
            for a in split_top(r, '×'):
                a = strip(a)
                add(R, a, 'r')
                add(RS, re.sub(r"(?<![\w.])([a-z_]\w*)", lambda m: '‹' + typ[m.group(1)] + '›' if m.group(1) in typ else m.group(1), a), 's')
        for e in f.ens:
            ps = split_top(e, '→')
            for a in ps[:-1]:
                a = re.sub(r'^(\([^()]* : [^()]*\)\s*)+', '', re.sub(r'^(\(xs : [^→]*?\)\) \(end : ℕ\))$', '', a))
                for b in split_top(a, '×'):
                    if strip(b): add(P, strip(b), 'p')
            for b in split_top(ps[-1], '×'): add(C, strip(b), 'c')
        for e in f.req + f.ens:
            for m in re.finditer(r"(?<![\w.«])([a-zA-Z_][\w?]*)((?: «?[a-z_]\w*»?(?:\.(?:now|old|new|entry|\d|[a-z_]+))*)+)", e):
                args = []
                for a in m.group(2).split():
                    r = a.strip('«»').split('.')[0].strip('«»')
                    if r not in typ: break
                    args.append('‹' + typ[r] + '›' + re.sub(r'^\w+|\.(now|old|new|entry)$', '', a.strip('«»').replace('»', '')))
                if args and m.group(1) not in typ and m.group(1) not in ('ks', 'key', 'r', 'x', 'λ'): add(T, m.group(1) + ' ' + ' '.join(args), 't')
    show('facts of requires, by their words', R)
    show('facts of requires, parameters by their types', RS)
    show('premises of ensures', P)
    show('parts of ensures', C)
    show('spec functions of parameters, by their types, in requires or ensures', T)


def params():
    n = 0
    for f in every():
        if len(f.params) >= 7:
            n += 1
            print('%s  %d parameters' % (at(f), len(f.params)))
    print(n, 'functions with 7 parameters or more')


def switches():
    n = 0
    for f in every():
        ps = [p for p in f.params if p[1] in ('bool', 'Kind', 'Which', 'Listed', 'Sort') or (p[0] in ('kind', 'code', 'unit', 'format', 'item', 'position', 'tag') and p[1] in ('u8', 'u32', 'u64'))]
        if ps:
            n += 1
            print('%s  %s' % (at(f), ', '.join('%s: %s' % p for p in ps)))
    print(n, 'functions with a parameter of type bool or of an enum without fields, or a number for a kind')


if __name__ == '__main__':
    {'apart': apart, 'twins': twins, 'loops': loops, 'casts': casts, 'groups': groups, 'facts': facts, 'params': params, 'switches': switches}[sys.argv[1]]()
