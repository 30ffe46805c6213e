#!/usr/bin/env python3
"""Statements of proofs/*.antt and specs/ that differ between two checkouts: python3 tools/theorems.py OLD NEW [-v]
Those that README.md or docs/ of OLD names are told with both statements; of the others the names (with -v the statements too)."""
import glob, os, re, sys

old, new = [a for a in sys.argv[1:] if not a.startswith('-')]
told = '-v' in sys.argv


def statements(top):
    found = {}
    for f in glob.glob(os.path.join(top, 'crates/*/proofs/**/*.antt'), recursive=True) + glob.glob(os.path.join(top, 'crates/*/specs/**/*.antt'), recursive=True):
        if os.path.basename(f) in ('Answers.antt', 'Invariants.antt', 'Lib.antt'):
            continue
        crate = os.path.relpath(f, top).split('/')[1]
        lines = open(f).read().split('\n')
        module = ''
        i = 0
        while i < len(lines):
            line = lines[i]
            if re.match(r'module _', line):
                module = line
                while not module.rstrip().endswith('where'):
                    i += 1
                    module += ' ' + lines[i].strip()
            elif line and not line[0].isspace():
                module = module if line.startswith('--') else ''
            m = re.match(r'( *)(?:abbrev |unfoldable )?pub ([\w\'◌≡-]+)((?: \{.*\})?) ?:(?: |$)(.*)', line)
            if m and '/proofs/' in f:
                indent = len(m.group(1))
                text = m.group(3) + ' : ' + m.group(4)
                j = i + 1
                while j < len(lines) and lines[j].strip() and len(lines[j]) - len(lines[j].lstrip()) > indent and not lines[j].strip().startswith('--'):
                    text += ' ' + lines[j].strip()
                    j += 1
                name = m.group(2)
                found.setdefault((crate, name), []).append(' '.join((module + ' |- ' if indent and module else '') .split() + text.split()))
            i += 1
    return found


pages = ''.join(open(p).read() for p in [os.path.join(old, 'README.md')] + glob.glob(os.path.join(old, 'docs/*.md')))
named = set(re.findall(r'`([\w\'-]+)`', pages))
a, b = statements(old), statements(new)
by_name = {}
for (crate, name), s in b.items():
    by_name.setdefault(name, []).append((crate, s))
same = [k for k in a if sorted(a[k]) == sorted(b.get(k, []))]
gone = [k for k in a if k not in b]
changed = [k for k in a if k in b and sorted(a[k]) != sorted(b[k])]
print(f'statements {len(a)} -> {len(b)}; the same {len(same)}, changed {len(changed)}, gone {len(gone)}, new {len([k for k in b if k not in a])}')
for k in sorted(gone + changed):
    kind = 'gone' if k in gone else 'changed'
    page = ' (named by a page)' if k[1] in named else ''
    print(f'{kind}{page}: {k[0]} {k[1]}')
    if told or page:
        for s in a[k]:
            print('    -', s)
        for s in b.get(k, []):
            print('    +', s)
        if kind == 'gone':
            for crate, s in by_name.get(k[1], []):
                print('    now in', crate, *s)
