#!/usr/bin/env python3
"""Fills the two tables of docs/DESIGN-PASS.md. usage: docs/design/fill.py OLD-AS-IT-WAS OLD-IN-TODAY'S-SPELLING, both checkouts of the beginning"""
import os, re, subprocess, sys
was, spelled = sys.argv[1], sys.argv[2]


def run(*a):
    return subprocess.run(a, capture_output=True, text=True).stdout.split('\n')


def counts(top):
    rows = []
    for l in run('bash', os.path.abspath('docs/design/counts.sh'), top):
        m = re.match(r'\s*(\d+)  (.*)$', l)
        if m:
            rows.append((m.group(2), m.group(1)))
            continue
        for pat, name, form in (
                (r'(\d+) functions, \d+ of them one match', '1 functions that take an own answer apart', '%s'),
                (r'names of functions kept: (\d+) groups of (\d+) functions', '2 groups of equal bodies, the names of functions kept', '%s of %s functions'),
                (r'names replaced: (\d+) groups of (\d+) functions', '2 groups of equal bodies, names replaced', '%s of %s functions'),
                (r'(\d+) functions, (\d+) casts', '4 functions with casts, casts', '%s, %s'),
                (r'(\d+) groups$', '5 groups of parameters in three or more functions', '%s'),
                (r'(\d+) functions with 7 parameters', '5 functions with seven parameters or more', '%s'),
                (r'(\d+) functions', '7 functions with a flag or a kind as a parameter', '%s')):
            m = re.match(pat, l.strip())
            if m:
                rows.append((name, form % m.groups()))
                break
    return rows


a, b = counts(was), dict(counts('.'))
one = ['| what is counted | at the beginning | now |', '|---|---|---|'] + ['| %s | %s | %s |' % (n, v, b.get(n, '?')) for n, v in a]
names = {'1': 'Option, Result, enums', '2': 'twins (members of groups)', '3': 'loops', '4': 'by hand for the library', '5': 'facts and parameters', '6': 'buffers, arenas', '7': 'switches'}
two = ['| point | places named | changed | kept with a reason | still to do |', '|---|---|---|---|---|']
for l in run('python3', 'docs/design/state.py', spelled, '.'):
    m = re.match(r'point (\d): named (\d+), changed (\d+), kept (\d+), to do (\d+)', l)
    if m:
        two.append('| %s %s | %s | %s | %s | %s |' % (m.group(1), names[m.group(1)], *m.groups()[1:]))
old = {n: int(v) for n, v in a if n.startswith('8')}
new = {n: int(b[n]) for n in old}
files, lines = old['8 files of proofs/'], old['8 lines of proofs/']
two.append('| 8 proofs | %d files, %d lines | %d files and %d lines fewer | DONE8 | TODO8 |' % (files, lines, files - new['8 files of proofs/'], lines - new['8 lines of proofs/']))
p = 'docs/DESIGN-PASS.md'
s = open(p).read()
eight = re.search(r'^\| 8 proofs .*$', s, re.M).group(0)
two[-1] = two[-1].replace('DONE8', eight.split('|')[4].strip()).replace('TODO8', eight.split('|')[5].strip())
for mark, t in (('counts', one), ('table', two)):
    s = re.sub(r'(<!-- %s -->\n).*?(<!-- %s -->)' % (mark, mark), lambda m: m.group(1) + '\n'.join(t) + '\n' + m.group(2), s, flags=re.S)
open(p, 'w').write(s)
