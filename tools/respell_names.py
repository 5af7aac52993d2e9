#!/usr/bin/env python3
"""Brings this repository's own definitions and lemmas to the spelling of today's Rattle: words in snake case, ' for ′.

usage: tools/respell_names.py [--dry]      at the top of the repository, once, after Rattle's port.py

What it turns: names that an .antt file of the repository declares (definitions, lemmas, fields, local steps), where they
stand in .antt files, in clauses and ghost imports of .rt files, in must-fail edits and in the pages. Types, constructors,
functions of src/, names that Rattle makes and names of its library stay.
"""
import os, re, sys, collections

DRY = '--dry' in sys.argv
ID = r"[^\W\d][\w'′₀-₉→≤<]*(?:-[\w'′₀-₉→≤<+]+)*"
TOKEN = re.compile(r"«[^»]*»|(?<!\w)" + ID)
DECL = re.compile(r"^\s*(?:(?:pub|abbrev|unfoldable|opaque|let|field)\s+)*((?:" + ID + r")(?:\s+" + ID + r")*)\s*:(?!:)")
BINDER = re.compile(r"[({]\s*((?:" + ID + r")(?:\s+" + ID + r")*)\s*:(?!:)")
LET = re.compile(r"\blet\s+(" + ID + r")\s*[:=]")
LAMBDA = re.compile(r"λ\s+([^.]*)\.")
USE = re.compile(r"\buse\s+([\w.·'-]+?)(?:\.\{([^}]*)\}|\s+as\s+(\S+)|$|;)", re.M)
ALIAS = re.compile(r"(" + ID + r")\s+as\s+(" + ID + r")")

def files(*ends):
    for d, ds, fs in os.walk('crates'):
        ds[:] = sorted(x for x in ds if x not in ('out', '.git', 'data'))
        for f in sorted(fs):
            if f.endswith(ends):
                yield os.path.join(d, f)

def snake(n):
    if n[0].isupper():
        return n.replace('′', "'")
    n = n.replace('getD', 'get_or')
    n = re.sub(r"(?<=[a-z0-9₀-₉'])([A-Z]+)(?=[a-z0-9]|$|[-_'])", lambda m: '_' + m[1].lower(), n)
    n = re.sub(r"[A-Z]+", lambda m: m[0].lower(), n)
    n = n.replace('-', '_').replace('′', "'")
    return n

crates = set(c for c in os.listdir('crates'))
def ours(path):
    p = path.split('.')
    return p[0] == 'Rattle' and len(p) > 2 and p[1] in crates and 'declared' not in p and 'contracts' not in p

declared, outside, made = collections.Counter(), set(), set()
outside_in = collections.defaultdict(set)
for f in files('.antt', '.rt'):
    t = open(f, encoding='utf-8').read()
    for m in USE.finditer(t):
        path, names, alias = m[1], m[2] or '', m[3]
        own = ours(path)
        for part in names.split(','):
            part = part.strip()
            a = re.match(r"(\S+)\s+as\s+(\S+)$", part)
            if a:
                declared[a[2]] += 1
                part = a[1]
            if not own and part:
                outside.add(part); outside_in[part].add(f)
        if alias:
            declared[alias] += 1
    if f.endswith('.antt'):
        body = '\n'.join(l for l in t.split('\n') if not l.lstrip().startswith(('use ', 'pub use ', '--')))
        for l in body.split('\n'):
            m = DECL.match(l)
            if m:
                for n in m[1].split():
                    declared[n] += 1
        for m in BINDER.finditer(body):
            for n in m[1].split():
                declared[n] += 1
        for m in LET.finditer(body):
            declared[m[1]] += 1
        for m in LAMBDA.finditer(body):
            for n in re.findall(ID, m[1]):
                declared[n] += 1

KEEP = set('pub abbrev unfoldable opaque let field record where'.split())
# Names of functions, of which a dash joins two: definitions of specs/, and words of the library that have no dash.
spec_names = set()
for f in files('.antt'):
    if '/specs/' in f:
        for l in open(f, encoding='utf-8'):
            m = re.match(r"^(?:(?:pub|abbrev|unfoldable|opaque)\s+)*(" + ID + r")\s*:(?!:)", l)
            if m:
                spec_names.add(snake(m[1]))
functions = spec_names | {n for n in outside if re.fullmatch(r"[a-z_]{3,}", n)}
SMALL = set('not rest all are both same some sum by for the one the most has its'.split())

def spelled(n):
    """snake case; a dash stays only where it joins the names of two functions"""
    if '-' not in n:
        return snake(n)
    if n[0].isupper():
        return snake(n)
    parts = [snake(p) for p in n.replace('getD', 'get_or').split('-')]
    if len(parts) == 2 and all(p in functions and p not in SMALL for p in parts):
        return parts[0] + '-' + parts[1]
    return '_'.join(parts)

table = {}
for n in declared:
    if n in KEEP or n.startswith('«'):
        continue
    s = spelled(n)
    if s != n:
        table[n] = s
clash = {n for n in table if n in outside}
back = collections.defaultdict(set)
for n, s in table.items():
    back[s].add(n)
for s in list(back):
    if (s in declared or s in outside) and s not in table:
        back[s].add(s)
# Two names that would fall together where one file has both: the lemma gets _lem.
tokens = {}
for f in files('.antt', '.rt'):
    tokens[f] = set(m[0] for m in TOKEN.finditer(open(f, encoding='utf-8').read()))
unsure = []
for s, olds in sorted(back.items()):
    if len(olds) < 2:
        continue
    both = [f for f, ts in tokens.items() if len(olds & ts) > 1]
    if not both:
        continue
    dashed = [o for o in olds if '-' in o]
    if len(olds) - len(dashed) > 1 or not dashed:
        unsure.append((s, sorted(olds), both[:4]))
        continue
    for o in dashed:
        table[o] = s + '_lem'

# Names in snake case that would fall together with a definition in these places: the lemma gets _lem.
LEMMAS = [
    ('crates/records/proofs/Leaving.antt', 'at_slot'), ('crates/records/proofs/Parted.antt', 'at_slot'),
    ('crates/sheet_grammar/proofs/', 'line_read'), ('crates/sheet_grammar/proofs/', 'number_read'),
    ('crates/readiness/proofs/Examples.antt', 'link_up'), ('crates/readiness/proofs/Sent.antt', 'raised_all'),
    ('crates/sheet/proofs/', 'number_fits'), ('crates/registers/proofs/Rules.antt', 'same_kind'),
    ('crates/capture/proofs/Examples.antt', 'went_back'), ('crates/capture_lines/proofs/Examples.antt', 'went_back'),
]
STRING = re.compile(r'"(?:[^"\\]|\\.)*"')
CODE = re.compile(r'`[^`\n]+`')

def turned(text, f, dashed=True):
    lem = {n for place, n in LEMMAS if f.startswith(place)}

    def tok(m):
        w = m[0]
        if w in lem:
            return w + '_lem'
        if w.startswith('«') or w not in table or (not dashed and '-' in w):
            return w
        if w in clash and f in outside_in[w]:
            return w
        if re.search(r"Rattle\.[\w.]*$", text[max(0, m.start() - 120):m.start()]):
            return w
        return table[w]
    return TOKEN.sub(tok, text)

def main():
    for f in list(files('.antt', '.rt', '.edit')):
        t = open(f, encoding='utf-8').read()
        if f.endswith('.antt'):
            n = ''.join(turned(l, f) for l in t.splitlines(keepends=True))
        elif f.endswith('.edit'):
            n = ''.join(l if l.startswith('file:') else turned(l, f) for l in t.splitlines(keepends=True))
        else:
            out = []
            for l in t.splitlines(keepends=True):
                at, line = 0, ''
                for m in STRING.finditer(l):
                    line += turned(l[at:m.start()], f, dashed=False) + m[0]
                    at = m.end()
                out.append(line + turned(l[at:], f, dashed=False))
            n = ''.join(out)
        if n != t:
            open(f, 'w', encoding='utf-8').write(n)
    pages = [os.path.join(d, x) for d in ('.', 'docs') for x in os.listdir(d) if x.endswith('.md')]
    for f in pages:
        t = open(f, encoding='utf-8').read()
        n = CODE.sub(lambda m: turned(m[0], f) if ' ' not in m[0] or not re.search(r"^`(rt|otsnebura|cargo|tools/|\./|git)", m[0]) else m[0], t)
        if n != t:
            open(f, 'w', encoding='utf-8').write(n)

if __name__ == '__main__':
    print(f'{len(table)} names to turn; {len(clash)} of them are also names of the library; {len(unsure)} to look at')
    for s, o, fs in unsure:
        print('together:', s, o, fs)
    for n in sorted(clash):
        print('library:', n, '->', table[n], len(outside_in[n]))
    if not DRY:
        main()
