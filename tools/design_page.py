#!/usr/bin/env python3
"""Writes docs/design/CONTRACTS.md from what the kit's contracts.py says of two checkouts.

usage: tools/design_page.py OLD NEW > docs/design/CONTRACTS.md

OLD is the commit at which the design pass began, brought to today's spelling by tools/design_spell.py; NEW is this checkout."""
import json, re, subprocess, sys

old, new = sys.argv[1:3]
said = subprocess.run(['python3', '/opt/rattle/port/contracts.py', old, new, '--json'], capture_output=True, text=True).stdout
d = json.loads(said)


def clauses(kind, cs):
    return ['%s%s { %s }' % (kind, ' ' + n if n else '', t) for n, t in cs]


def block(a, b):
    print('```')
    for l in a:
        print('- ' + l)
    for l in b:
        print('+ ' + l)
    print('```')


def public():
    """The crate, file and name of each public function of either side."""
    names = set()
    for top in (old, new):
        out = subprocess.run(['grep', '-rnE', r'^\s*pub (extern "C" )?fn ', top + '/crates', '--include=*.rt'], capture_output=True, text=True).stdout
        for l in out.split('\n'):
            m = re.search(r'/crates/(\w+)/(src/\S+?\.rt):\d+:\s*pub (?:extern "C" )?fn (\w+)', l)
            if m:
                names.add('%s %s %s' % m.groups())
    return names


pub = public()
print("""# What the design pass did to contracts, definitions and edits

Old and new side by side, by tools/design_page.py: the commit at which the pass began, brought to today's spelling by tools/design_spell.py (the library's Option for mathlib's, `Some` and `None` for `some` and `none`,
`slice_get` for `get_elem?`, Option and Result for the own answers, and the meaning functions that became identities left out), against this checkout. What differs by that spelling alone is not listed.
""")
print('- functions %d → %d, with an ensures %d → %d; contracts the same %d, changed %d; signatures changed %d' % (
    *d['functions'], *d['with ensures'], d['contracts the same'], len(d['contracts changed']), len(d['signatures changed'])))
print('- definitions and lemmas of specs/ %d → %d: the same %d, changed %d, gone %d' % tuple(
    d['definitions'][k] if isinstance(d['definitions'][k], int) else len(d['definitions'][k]) for k in ('old', 'new', 'same', 'changed', 'gone')))
print('- fewer ensures: %d; all ensures gone: %d; more requires: %s' % (len(d['fewer ensures']), len(d['ensures all gone']), ', '.join(d['more requires']) or 'none'))
print('- lines: %s' % ', '.join('%s %s → %s' % (k, d['sizes'][0][k], d['sizes'][1][k]) for k in d['sizes'][0]))
for title, want in (('Public functions whose contract changed', True), ('Private functions whose contract changed', False)):
    xs = [x for x in d['contracts changed'] if (x[0] in pub) == want]
    print('\n## %s (%d)' % (title, len(xs)))
    for name, r0, e0, r1, e1 in xs:
        print('\n%s' % name)
        block(clauses('requires', r0) + clauses('ensures', e0), clauses('requires', r1) + clauses('ensures', e1))
for title, want in (('Public functions whose signature changed', True), ('Private functions whose signature changed', False)):
    xs = [x for x in d['signatures changed'] if (x[0] in pub) == want]
    print('\n## %s (%d)' % (title, len(xs)))
    for name, a, b in xs:
        print('\n%s' % name)
        block([a], [b])
print('\n## Functions that are gone or have another name (%d)\n' % len(d['functions not found again']))
for x in d['functions not found again']:
    key = re.sub(r' \(.*', '', x)
    print('- %s%s' % (x, ', public' if key in pub else ''))
print('\nWhat states the promise of each public one now: docs/design/GONE.md. Of the others, each was inside its crate, or stands under another name in this list.')
print('\n## Definitions and lemmas of specs/ that changed (%d)' % len(d['definitions']['changed']))
for c, n, a, b in d['definitions']['changed']:
    print('\n%s %s' % (c, n))
    block([' '.join(a) if isinstance(a, list) else a], [' '.join(b) if isinstance(b, list) else b])
print('\n## Definitions and lemmas of specs/ that are gone (%d)\n' % len(d['definitions']['gone']))
print(', '.join('%s %s' % tuple(x[:2]) for x in d['definitions']['gone']))
print('\n## Edits that were brought over (%d)' % len(d['edits and outputs']['changed']))
for c, n, a, b in d['edits and outputs']['changed']:
    print('\n%s %s' % (c, n))
    block([a], [b])
