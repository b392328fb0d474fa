#!/usr/bin/env python3
"""What became of the places of docs/design/PLACES.md: a place counts as changed where the item that it names is gone, or reads otherwise than at the beginning of the pass
(brought to today's spelling by tools/design_spell.py), signature and clauses included; else it stands. A place is kept where docs/design/KEPT.md has a line for it, even where its spelling changed,
`- POINT crate/file.rt name | a, b, c or d | reason`; the others are still to do. usage: docs/design/state.py OLD [NEW [--list]]"""
import glob, os, re, sys
from collections import OrderedDict
old = sys.argv[1]
new = sys.argv[2] if len(sys.argv) > 2 else '.'
full = '--list' in sys.argv


def items(top, by_file):
    """(crate, name), or (crate, file, name), -> texts of the items of that name: a function, struct, enum, const, with its derives."""
    found = {}
    for f in sorted(glob.glob(top + '/crates/*/src/**/*.rt', recursive=True)):
        crate = f[len(top):].split('/crates/')[1].split('/')[0]
        ls = open(f).read().split('\n')
        for i, l in enumerate(ls):
            m = re.match(r'(\s*)(?:#\[[^\]]*\]\s*)?(?:pub(?:\(\w+\))? )?(?:unsafe )?(?:extern "C" )?(fn|struct|enum|const|trait) (\w+)', l)
            if not m:
                continue
            ind, j = m.group(1), i
            if not l.rstrip().endswith(';'):
                while j + 1 < len(ls) and not (ls[j].startswith(ind + '}') or (j == i and l.rstrip().endswith('}'))):
                    j += 1
                    if ls[j].startswith(ind + '}') or ls[j].rstrip() == ind + ')' :
                        if ls[j].startswith(ind + '}'):
                            break
            text = re.sub(r'\s+', ' ', re.sub(r'//[^\n]*', '', '\n'.join(ls[i:j + 1]))).replace('pub(crate) ', '').replace('pub ', '')
            text = (ls[i - 1].strip() + ' ' if i and ls[i - 1].strip().startswith('#[derive') else '') + text.strip()
            key = (crate, f.split('/src/')[-1], m.group(3)) if by_file else (crate, m.group(3))
            found.setdefault(key, []).append(text)
    return found


a, b = items(old, True), items(new, False)
here = os.path.dirname(os.path.abspath(__file__))
rows = OrderedDict()
part = None
kept = {}
for l in open(os.path.join(here, 'KEPT.md')) if os.path.exists(os.path.join(here, 'KEPT.md')) else []:
    m = re.match(r'- (\w+) (\S+) (\w+) \| ([abcd]) \|', l)
    if m:
        kept[(m.group(1), m.group(2), m.group(3))] = m.group(4)
for l in open(os.path.join(here, 'PLACES.md')):
    m = re.match(r'### (\w+)\.', l)
    if m:
        part = m.group(1)
        rows[part] = [0, 0, 0, 0, []]
        continue
    if l.startswith('## '):
        part = None
    if part is None or not l.startswith('- '):
        continue
    for m in re.finditer(r'(\w+)/src/(\S+?\.rt):\d+\s+(\w+)', l):
        key = (m.group(1), m.group(3))
        rows[part][0] += 1
        if key in b and (part, '%s/%s' % (m.group(1), m.group(2)), m.group(3)) in kept:
            rows[part][2] += 1
        elif key in b and any(t in b[key] for t in a.get(m.groups(), [])):
            rows[part][3] += 1
            rows[part][4].append('%s/%s %s' % (m.group(1), m.group(2), m.group(3)))
        else:
            rows[part][1] += 1
for p, (n, c, k, s, xs) in rows.items():
    print('%-4s named %4d  changed %4d  kept %4d  to do %4d' % (p, n, c, k, s))
    if full:
        for x in xs:
            print('      ' + x)
for k in '1234567':
    r = [v for p, v in rows.items() if p.startswith(k)]
    print('point %s: named %d, changed %d, kept %d, to do %d' % ((k,) + tuple(sum(v[i] for v in r) for i in range(4))))
