#!/usr/bin/env python3
"""Counts the places of each point of docs/DESIGN-PASS.md in crates/*/src: python3 tools/places.py [FOLDER] [-v]"""
import collections, glob, os, re, sys

folder = next((a for a in sys.argv[1:] if not a.startswith('-')), '.')
told = '-v' in sys.argv
files = sorted(glob.glob(os.path.join(folder, 'crates/*/src/**/*.rt'), recursive=True))
text = {os.path.relpath(f, folder): open(f).read() for f in files}
code = {f: [l for l in t.split('\n')] for f, t in text.items()}


def lines(pattern):
    return [(f, i + 1, l.strip()) for f, ls in code.items() for i, l in enumerate(ls)
            if re.search(pattern, l) and not l.strip().startswith(('//', 'ghost '))]


def functions():
    for f, t in text.items():
        for m in re.finditer(r'\bfn (\w+)(?:<[^>]*>)?\(([^)]*)\)', t):
            names = [p.split(':')[0].replace('mut ', '').replace('&', '').strip() for p in m.group(2).split(',') if p.strip()]
            yield f, t[:m.start()].count('\n') + 1, m.group(1), names


def together(*names):
    return [(f, i, fn) for f, i, fn, ps in functions() if all(n in ps for n in names)]


def facts():
    seen = collections.defaultdict(list)
    for f, t in text.items():
        for m in re.finditer(r'requires[^{\n]*\{((?:[^{}]|\{[^{}]*\})*)\}', t):
            for part in ' '.join(m.group(1).split()).split(' × '):
                part = part.strip(' ()')
                if part != 'M : Matter':
                    seen[part].append((f, t[:m.start()].count('\n') + 1, part))
    return [p for k, ps in seen.items() if len(ps) >= 3 for p in ps]


points = [
    ('1a own enums', lines(r'^\s*(pub )?enum ')),
    ('1b a flag among the fields', lines(r'^\s+(pub )?\w+: bool,')),
    ('1c a reply beside a value', lines(r'^\s+pub reply: ')),
    ('1d a number or byte tested for a kind', lines(r"call == b'|language == [0-9]|\bkind == [0-9]|edition == [0-9]")),
    ('1e the end of a range for none', lines(r'\bn <= [a-z_]+\(|if [xy] == n\b|[a-z_]+\(.*\) < n \{|^    n$|let mut best = n;')),
    ('3a while and loop', lines(r'^\s*(while|loop)\b')),
    ('3b for', lines(r"^\s*('\w+: )?for ")),
    ('4a digits, hexadecimal', lines(r'/ 16\b|% 16\b|48 \+|55 \+|n % 10|/ 16777216')),
    ('4b equality by a loop', lines(r'fn is_word|fn same_word|fn equal')),
    ('4c a conversion by a function', lines(r'fn (number|one_if|wide|bit_of|word_of)\(')),
    ('5a graph and number of parties apart', together('g', 'n')),
    ('5b and a pair', together('g', 'n', 'first', 'second')),
    ('5c and two pairs', together('g', 'n', 'first', 'second', 'u', 'v')),
    ('5d word and fixed symbols', together('w', 'fixed')),
    ('5e labels, language, longest', together('labels', 'language', 'longest')),
    ('5f archive and a pair', together('a', 'first', 'second')),
    ('5g masks and followers', together('masks', 'follow')),
    ('5h six parameters or more', [(f, i, fn) for f, i, fn, ps in functions() if len(ps) >= 6]),
    ('5i a fact required by three functions or more', facts()),
    ('6a a count beside an array', lines(r'^\s+pub (count|len|number): ')),
    ('6b a slice with a clause on its length', lines(r'length \w+\.now ≡')),
    ('7 a switch on which call to run', lines(r"if (f\.)?call == b'|Call::\w+ =>")),
    ('K a place kept, with its reason', [(f, i + 1, l.strip()) for f, ls in code.items() for i, l in enumerate(ls) if '// Kept: ' in l]),
]
for name, places in points:
    print(f'{len(places):4d}  {name}')
    if told:
        for p in places:
            print(f'        {p[0]}:{p[1]}: {p[2]}')
