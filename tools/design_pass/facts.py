#!/usr/bin/env python3
"""facts.py [DIR] facts|groups [MIN]: what contracts repeat.
facts: each conjunct of a requires or ensures that stands in MIN (3) or more functions, the names of parameters taken out; with how many functions, crates.
groups: each run of three or more parameters (name and type) that stands in a row in MIN (3) or more functions, and in no longer run of as many."""
import re, sys, os
from collections import defaultdict
sys.path.insert(0, os.path.dirname(os.path.abspath(__file__)))
from fns import functions
args = [a for a in sys.argv[1:]]
root = args[0] if args and args[0] not in ('facts', 'groups') else '.'
what = 'groups' if 'groups' in args else 'facts'
least = int(args[-1]) if args[-1].isdigit() else 3

def split(s, seps):
    out, d, cur = [], 0, ''
    for c in s:
        if c in '([{': d += 1
        if c in ')]}': d -= 1
        if d == 0 and c in seps:
            out.append(cur); cur = ''
        else: cur += c
    out.append(cur)
    return [x.strip() for x in out if x.strip()]

def bare(x):
    while x.startswith('(') and x.endswith(')'):
        d = 0
        for i, c in enumerate(x):
            d += c == '('; d -= c == ')'
            if d == 0 and i < len(x) - 1: return x
        x = x[1:-1].strip()
    return x

if what == 'facts':
    facts = defaultdict(set)
    for place, name, gen, params, ret, con, body, at in functions(root):
        ps = [p.split(':')[0].strip().replace('mut ', '') for p in split(params, ',')]
        for cl in con.split(' ;; '):
            m = re.match(r'(requires|ensures) [\w-]*\{ (.*) \}$', cl)
            if not m: continue
            for x in split(m.group(2), '×'):
                x = bare(x)
                seen = {}
                def sub(mm):
                    w = mm.group(0)
                    if w in ps: return 'p%d' % seen.setdefault(w, len(seen))
                    return w
                y = re.sub(r'\b\w+\b', sub, x)
                if re.match(r'^\(?\w+( \w+)* : ', y): continue      # for all ..: a fact of its own
                facts[(m.group(1), y)].add(place + ' ' + name)
    for (k, y), fs in sorted(facts.items(), key=lambda z: -len(z[1])):
        # only facts about a value by itself: no relation to the specification's functions
        if len(fs) >= least:
            print('%d\t%d\t%s\t%s' % (len(fs), len({f.split('/')[1] for f in fs}), k, y))
else:
    runs = defaultdict(set)
    for place, name, gen, params, ret, con, body, at in functions(root):
        ps = [re.sub(r'\s+', ' ', p) for p in split(params, ',')]
        for i in range(len(ps)):
            for j in range(i + 3, len(ps) + 1):
                runs[tuple(ps[i:j])].add(place + ' ' + name)
    def inside(a, b):
        return len(a) < len(b) and any(b[i:i+len(a)] == a for i in range(len(b) - len(a) + 1))
    keep = [(r, f) for r, f in runs.items() if len(f) >= least]
    keep = [(r, f) for r, f in keep if not any(inside(r, q) and len(g) == len(f) for q, g in keep)]
    for r, f in sorted(keep, key=lambda z: (-len(z[1]), -len(z[0]))):
        print('%d\t%d\t%s' % (len(f), len({x.split('/')[1] for x in f}), ', '.join(r)))
