#!/usr/bin/env python3
"""appendix.py OLD NEW: what changed of the public items of src/ (functions with their clauses, types, constants) and of the declarations of specs/, old and new side by side, as Markdown."""
import collections, difflib, os, re, sys
sys.path.insert(0, os.path.dirname(os.path.abspath(__file__)))
import parts
OLD, NEW = (sys.argv + ['.', '.'])[1:3]

def two(head, old, new, note=''):
    print('\n#### ' + head + (' ' + note if note else '') + '\n')
    if old is not None: print('```old\n' + old + '\n```')
    if new is not None: print('```new\n' + new + '\n```')

TOK = re.compile(r"[\w'?◌→]+|\s+|[^\w\s]")
def tokdiff(a, b, around=3):
    """The changed places of two texts, each with a few words around, as a list of old -> new."""
    x, y = [t for t in TOK.findall(a) if not t.isspace()], [t for t in TOK.findall(b) if not t.isspace()]
    sm = difflib.SequenceMatcher(None, x, y, autojunk=False)
    ops = [o for o in sm.get_opcodes() if o[0] != 'equal']
    groups = []
    for o in ops:
        if groups and o[1] - groups[-1][1] <= 3: groups[-1] = (groups[-1][0], o[2], groups[-1][2], o[4])
        else: groups.append((o[1], o[2], o[3], o[4]))
    def join(ts):
        s = ''
        for t in ts:
            if s and not re.match(r'[),.;\]}]', t) and not re.search(r'[(.\[{]$', s): s += ' '
            s += t
        return s
    out = []
    for a1, a2, b1, b2 in groups:
        l = max(0, a1 - around); r = around
        out.append((join(x[l:a1] + x[a1:a2] + x[a2:a2 + r]), join(y[max(0, b1 - around):b1] + y[b1:b2] + y[b2:b2 + r])))
    seen = []
    for o in out:
        if o not in seen: seen.append(o)
    return seen

# ── src/ ──
a, b = parts.items(OLD, True), parts.items(NEW, True)
pa = {k: v for k, v in a.items() if v['pub']}
pb = {k: v for k, v in b.items() if v['pub']}
same = [k for k in pa if k in pb and pa[k]['flat'] == pb[k]['flat']]
changed = [k for k in pa if k in pb and pa[k]['flat'] != pb[k]['flat']]
gone = [k for k in pa if k not in pb]
fresh = [k for k in pb if k not in pa]
moved = []
for k in list(gone):
    for j in list(fresh):
        if j[-1] == k[-1] and pa[k]['flat'] == pb[j]['flat']:
            moved.append((k, j)); gone.remove(k); fresh.remove(j); break
print('# Public items of src/\n')
print('Old: commit 45bd516; new: this commit. Comments, layout and the hints `#[cycle]`, `#[tactic]`, `#[inline]` are left out: none of them is part of a promise. '
      'Public functions: %d then, %d now.' % (sum(v['kind'] == 'fn' for v in pa.values()), sum(v['kind'] == 'fn' for v in pb.values())))
print('Unchanged: %d items; changed: %d; gone: %d; new: %d; moved with the same text: %d.' % (len(same), len(changed), len(gone), len(fresh), len(moved)))
def clausediff(x, y):
    return [c for c in x['clauses']] != [c for c in y['clauses']]
def order(k): return list(b).index(k) if k in b else 10**6
sigonly = [k for k in changed if pa[k]['kind'] == 'fn' and not clausediff(pa[k], pb[k])]
def front(s): return s.split(' -> ')[0] if ' -> ' in s else s
def back(s): return s.split(' -> ')[1] if ' -> ' in s else '()'
res = [k for k in sigonly if front(pa[k]['sig']) == front(pb[k]['sig']) and pa[k]['sig'].count(' -> ') == 1]
print('\n## Changed: only the type of the result, the parameters and the clauses word for word the same (%d)\n' % len(res))
print('| function | old | new |\n|---|---|---|')
for k in res: print('| %s | `%s` | `%s` |' % (parts.spot(k), back(pa[k]['sig']), back(pb[k]['sig'])))
print('\n## Changed: the signature, the clauses word for word the same (%d)' % (len(sigonly) - len(res)))
for k in sigonly:
    if k not in res: two(parts.spot(k), pa[k]['sig'], pb[k]['sig'])
rest = [k for k in changed if k not in sigonly]
print('\n## Changed: clauses, types and constants (%d)' % len(rest))
for k in rest: two(parts.spot(k), pa[k]['text'], pb[k]['text'])
print('\n## Gone (%d)' % len(gone))
for k in gone: two(parts.spot(k), pa[k]['text'], None)
print('\n## New (%d)' % len(fresh))
for k in fresh: two(parts.spot(k), None, pb[k]['text'])
if moved:
    print('\n## Moved, the same text\n')
    for k, j in moved: print('- %s -> %s' % (parts.spot(k), parts.spot(j)))

# private functions with other clauses
ra = {k: v for k, v in a.items() if not v['pub']}
rb = {k: v for k, v in b.items() if not v['pub']}
ch = [k for k in ra if k in rb and ra[k]['clauses'] != rb[k]['clauses']]
print('\n## Private functions whose clauses changed (%d)' % len(ch))
print('\nOnly the clauses that changed. (Private functions that are gone stand in the list of those; those whose signature alone changed promise what they did, by the table of types above.)')
cl = lambda c: c[0] + ' { ' + c[1] + ' }'
for k in ch:
    o = [cl(c) for c in ra[k]['clauses'] if c not in rb[k]['clauses']]
    n = [cl(c) for c in rb[k]['clauses'] if c not in ra[k]['clauses']]
    two(parts.spot(k), '\n'.join(o) if o else None, '\n'.join(n) if n else None)

# ── specs/ ──
sa, sb = parts.specs(OLD), parts.specs(NEW)
da, db = {d['key']: d for d in sa}, {d['key']: d for d in sb}
def ctx(d): return d['context']
def allof(d): return (re.sub(r'\s+', ' ', ctx(d)), d['ft'])
def stmt(d):
    """What a reader may use: of a definition all, of a theorem its statement."""
    return (re.sub(r'\s+', ' ', ctx(d)), d['fs'] if d['kind'] == 'theorem' else d['ft'])
def words(d):
    return set(re.findall(r"[^\s(){},;.→×:=λ]+", d['text'] + ' ' + d['context']))
RENAMES = None
def sname(k): return '%s::%s.%s' % (k[0], k[1], k[2]) + ('' if k[3] == 1 else ' (no. %d)' % k[3])
gone = [k for k in da if k not in db]
fresh = [k for k in db if k not in da]
moved = []
for k in list(gone):
    for j in list(fresh):
        if j[2] == k[2] and (da[k]['fs'], da[k]['fb']) == (db[j]['fs'], db[j]['fb']):
            moved.append((k, j)); gone.remove(k); fresh.remove(j); break
moved2 = []
for k in list(gone):
    for j in list(fresh):
        if j[2] == k[2] and j[0] == k[0] and da[k]['kind'] == db[j]['kind']:
            moved2.append((k, j)); gone.remove(k); fresh.remove(j); break
pairs = [(k, k) for k in da if k in db] + moved2
changed, proof, imported = [], [], []
def base(p): return p.replace('mathlib.Core.', '').split('.')
STD = re.compile(r'^(Rattle\.std|mathlib|Prim)\b')
for k, j in pairs:
    x, y = da[k], db[j]
    if allof(x) == allof(y):
        w = [n for n in words(x) if n in x['imports'] or n in y['imports']]
        d = []
        for n in w:
            ps, qs = x['imports'].get(n, []), y['imports'].get(n, [])
            if set(ps) <= set(qs): continue
            p, q = [z for z in ps if z not in qs], [z for z in qs if z not in ps]
            if all(STD.match(z) for z in p + q): continue
            d.append((n, ', '.join(p), ', '.join(q) or '-'))
        if d: imported.append((k, d))
    elif stmt(x) != stmt(y): changed.append((k, j))
    else: proof.append(k)
print('\n# Declarations of specs/\n')
print('%d then, %d now. Changed in what they say: %d; theorems of which only the proof changed: %d; gone: %d; new: %d; moved with the same text: %d. '
      'Of a theorem (neither `abbrev` nor `unfoldable`: nothing outside its module can look into it) the statement is told, of a definition all.' % (len(sa), len(sb), len(changed), len(proof), len(gone), len(fresh), len(moved)))

# the renames that account for most: words of old enums, and what stands for them now
RENAMES = [tuple(x.split(' -> ')) for x in """Left -> Ok
Refused -> Err
Admitted_refused -> Err
Admitted_sizes -> Ok
Opened_refused -> Err
Blocks -> Ok
Moves -> Ok
Ended -> Ok
Size -> Ok
Made -> Ok
Found -> found
Found -> found_rules
Given_term -> found_term
Refused 9 -> Err Space
Refused 11 -> Err Stranger
Stranger -> None
Wanted -> Some
Admitted -> Result Limits Refusal
Opened -> Result ℕ Refusal
Weighed -> Answer
Rules -> Result Rules Refusal
Counted -> Result Counted Refusal
Given -> Result Given Refusal
Started -> Result ℕ Refusal
Moved -> Result Step Refusal
Ran -> Result Totals Refusal
Front -> Result Front Refusal
Done -> Option Done
Taken -> Option Taken
Option -> Maybe
Option -> Optional""".split('\n')]
def segments(a, b):
    x, y = [t for t in TOK.findall(a) if not t.isspace()], [t for t in TOK.findall(b) if not t.isspace()]
    for tag, i, j, k, l in difflib.SequenceMatcher(None, x, y, autojunk=False).get_opcodes():
        if tag != 'equal': yield x[i:j], y[k:l], x, y, i, j, k, l
def renamed(x, y):
    """Whether nothing but words of the table changed (a binder (k : ℕ) of a refusal may become (k : Refusal))."""
    a, b = ' '.join(stmt(x)), ' '.join(stmt(y))
    for p, q, xs, ys, i, j, k, l in segments(a, b):
        o, n = ' '.join(p), ' '.join(q)
        ok = False
        for u, v in RENAMES:
            # a replacement, or an insertion around the same word (Counted -> Result Counted Refusal)
            if (o, n) == (u, v): ok = True
            if not o and u in v.split() and (n in v): ok = True
            if not n: ok = False
        if o == 'ℕ' and n == 'Refusal': ok = True
        if (o, n) in (('9', 'Space'), ('11', 'Stranger')): ok = True
        if not ok: return None
    return tokdiff(a, b, 2)
defs = [(k, j) for k, j in changed if db[j]['kind'] != 'theorem']
ths = [(k, j) for k, j in changed if db[j]['kind'] == 'theorem']
def show(d):
    s = d['statement'] if d['kind'] == 'theorem' else d['text']
    return s, d['context']
def tell(k, j):
    x, y = da[k], db[j]
    so, co = show(x); sn, cn = show(y)
    note = '' if k == j else '(now in %s::%s)' % (j[0], j[1])
    fo, fn = (re.sub(r'\s+', ' ', s) for s in (so, sn))
    if co != cn:
        so = (co + '\n' if co else '') + so; sn = (cn + '\n' if cn else '') + sn
    t = tokdiff(' '.join(stmt(x)), ' '.join(stmt(y)), 3)
    if x['kind'] == y['kind'] == 'theorem' and len(so) > 400 and len(t) <= 6 and sum(len(o) + len(p) for o, p in t) < 0.4 * len(so + sn):
        print('\n#### ' + sname(k) + ('  ' + note if note else '') + '\n')
        for o, n in t: print('- `%s` -> `%s`' % (o, n))
    else: two(sname(k), so, sn, note)
def both(title, ps, what):
    pure = [(k, j, renamed(da[k], db[j])) for k, j in ps]
    some = [(k, j) for k, j, t in pure if not t]
    print('\n## %s (%d)' % (title, len(ps)))
    print('\n### By renames alone (%d)\n' % (len(ps) - len(some)))
    print('Each by the words that changed, old -> new, with two words around; the rest stands as it was. A line `names` of a module\'s parameter tells all declarations of that module that did not change themselves.\n')
    inmod = collections.OrderedDict()
    for k, j, t in pure:
        if not t: continue
        if show(da[k])[0] == show(db[j])[0]:
            inmod.setdefault((k[0], k[1], tuple(t)), []).append(k[2])
        else: print('- %s: %s' % (sname(k), '; '.join('`%s` -> `%s`' % x for x in t)))
    for (c, m, t), ns in inmod.items():
        print('- of a parameter of their module alone, %s::%s: %s: %s' % (c, m, '; '.join('`%s` -> `%s`' % x for x in t), ', '.join(ns)))
    print('\n### Otherwise (%d)' % len(some))
    if what: print('\n' + what)
    for k, j in some: tell(k, j)
both('Definitions, records and abbrevs that changed', defs, '')
both('Theorems whose statement changed', ths, 'Where a long statement changed in a few words only, these are told with three words around.')
print('\n## Gone (%d)' % len(gone))
for k in gone: two(sname(k), show(da[k])[0], None)
print('\n## New (%d)' % len(fresh))
for k in fresh: two(sname(k), None, show(db[k])[0])
if moved:
    print('\n## Moved, the same text\n')
    for k, j in moved: print('- %s -> %s' % (sname(k), sname(j)))
if imported:
    print('\n## The same words, of which one is imported from elsewhere\n')
    for k, d in imported: print('- %s: %s' % (sname(k), '; '.join('%s: %s -> %s' % x for x in d)))
print('\n## Theorems of which only the proof changed\n')
by = collections.OrderedDict()
for k in proof: by.setdefault((k[0], k[1]), []).append(k[2])
for (c, m), ns in by.items(): print('- %s::%s: %s' % (c, m, ', '.join(ns)))
