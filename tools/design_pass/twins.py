#!/usr/bin/env python3
"""twins.py [DIR] [--names]: groups of functions of DIR/crates/*/src whose bodies are the same once numbers, the names of integer types,
and the function's own names of parameters and locals are taken out (and with --names also the names of the functions, variants and constants that they use).
One line for each group: how many, then their places and names. Bodies of fewer than 12 tokens are told only where the whole function is one cast or one call."""
import re, sys, os
sys.path.insert(0, os.path.dirname(os.path.abspath(__file__)))
from fns import functions
names = '--names' in sys.argv
root = next((a for a in sys.argv[1:] if not a.startswith('-')), '.')
KW = set('if else while for in let mut return match continue break true false as loop move ref self'.split())
INT = re.compile(r'^(u8|u16|u32|u64|usize|i32|i64)$')
LIB = set('len iter get min max position any all'.split())
def norm(p, b):
    toks = re.findall(r"b?'[^']'|b\"[^\"]*\"|\w+|[^\w\s]", b)
    seen = {}
    out = []
    for i, t in enumerate(toks):
        nxt = toks[i+1] if i+1 < len(toks) else ''
        if re.match(r'^0u\d+$', t) or re.match(r'^\d', t): out.append('N')
        elif INT.match(t): out.append('T')
        elif t in KW or t in LIB: out.append(t)
        elif re.match(r'^[A-Z]', t) or nxt == '(' or nxt == ':' :
            out.append('F' if names else t)
        elif re.match(r'^\w', t):
            out.append('v%d' % seen.setdefault(t, len(seen)))
        else: out.append(t)
    return ' '.join(out)
groups = {}
for place, name, gen, params, ret, con, body, at in functions(root):
    k = norm(params, body)
    n = len(k.split())
    if n < 4: continue
    groups.setdefault(k, []).append((place, name, n))
for k, g in sorted(groups.items(), key=lambda x: -len(x[1])):
    if len(g) > 1 and (g[0][2] >= 9 or re.fullmatch(r'(v0 as T|\( v0 % N \) as T|v0 % N|v0 / N)', k)):
        print('%d: %s' % (len(g), ', '.join('%s %s' % (p, n) for p, n, _ in g)))
