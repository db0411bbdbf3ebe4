#!/usr/bin/env python3
"""table.py OLD NEW: table.md: what count.sh finds in both trees, by point and row, and where what is still found now stands. (Runs count.sh on both: a minute.)"""
import os, re, subprocess, sys
H = os.path.dirname(os.path.abspath(__file__))
OLD, NEW = sys.argv[1:3]
def run(d, *a): return subprocess.run([os.path.join(H, 'count.sh'), d, *a], capture_output=True, text=True).stdout
def rows(t):
    out = []
    for l in t.split('\n'):
        m = re.match(r'\| (\d+\.\d+) \| (.*?) \| (`.*`) \| (\S*) \|$', l)
        if m: out.append(m.groups())
    return out
o, n = rows(run(OLD)), rows(run(NEW))
lo, ln = run(OLD, 'list'), run(NEW, 'list')
new = {r[0]: r for r in n}
sys.path.insert(0, H)
from fns import functions
starts = {}
for r in functions(NEW):
    f, i = r[0].split(':'); starts.setdefault(f, []).append((int(i), r[1]))
src = {}
FAMILY = re.compile(r'here and|, and so (do|does)|these|in this file|each function|below|and its|family|both|and the|, and `|all of them|beside')
def reasoned(f, i):
    """Whether a comment with Stays stands directly above line i of file f, above the function around it or in it; or, at the head of the file or above an
    earlier function, one that says that it speaks for others too."""
    if f not in src:
        try: src[f] = open(os.path.join(NEW, f)).read().split('\n')
        except OSError: src[f] = []
    ls = src[f]
    def above(j):
        j -= 2
        while j >= 0 and re.match(r'\s*(//|#\[)', ls[j]):
            if 'Stays' in ls[j] and '//' in ls[j]: return True
            j -= 1
        return False
    if not ls or i > len(ls): return False
    if above(i) or ('//' in ls[i - 1] and 'Stays' in ls[i - 1]): return True
    before = [a for a, n in starts.get(f, []) if a <= i]
    if before:
        a = max(before)
        nxt = min([b for b, n in starts.get(f, []) if b > i], default=len(ls) + 1)
        if above(a) or any('// Stays' in l for l in ls[a - 1:min(nxt - 1, len(ls))]): return True
    block, says = '', False
    for l in ls[:i]:
        if re.match(r'\s*//', l): block += ' ' + l.strip(' /')
        else:
            if 'Stays' in block and FAMILY.search(block): says = True
            block = ''
    return says
TITLE = {1: 'own enums, flags, numbers for kinds and refusals', 2: 'twins', 3: 'loops by hand', 4: 'equality, order, conversion by hand', 5: 'repeated facts, parameters that travel together', 6: 'buffers, lists, indices', 7: 'switches', 8: 'proofs'}
import io, contextlib
today = lambda w: "today's form" in w
buf = io.StringIO()
with contextlib.redirect_stdout(buf):
    print('\n## Where what is still found stands\n')
    print('A line is a file, with the lines of the places. A star marks those with a reason beside them, that is a comment with `Stays` directly above the place or its function, or in the function.')
    def lists(t):
        d, cur = {}, None
        for l in t.split('\n'):
            m = re.match(r'### (\d+\.\d+) ', l)
            if m: cur = m.group(1); d[cur] = []
            elif l.startswith('    ') and cur: d[cur].append(l[4:])
        return d
    L, LO = lists(ln), lists(lo)
    tally = {}
    for r in o:
        k, what = r[0], r[1]
        if today(what) or k not in L: continue
        xs = L[k]
        print('\n### %s %s: %s then, %s now\n' % (k, what, r[3], new[k][3]))
        if not xs: print('None.'); continue
        if k in ('5.1', '5.2'):
            print('(functions, crates, clause, fact)\n```'); print('\n'.join(x.replace('\t', '  ') for x in (xs if k == '5.1' else []))); print('```' if k == '5.1' else '(those of 5.1 that say requires)\n```'); continue
        if k in ('5.3', '2.6', '2.1', '2.3', '2.7'):
            print('```'); print('\n'.join(x.replace('\t', '  ').replace('crates/', '').replace('/src/', '/').replace('.rt', '') if k != '2.6' else x.replace('crates/', '') for x in xs)); print('```'); continue
        files = {}
        tally[k] = [0, 0]
        for l in xs:
            m = re.match(r'crates/(\S+?)\.(?:rt|antt)[:-](\d+)[:-]?\s*(.*)$', l)
            if not m: files.setdefault(None, []).append(l); continue
            f, i, t = m.groups()
            t = re.sub(r'^(counted|walk): ', '', t)
            t = re.sub(r'^(pub )?const (\w+).*', r'\2', t)
            keep = k in ('1.6', '1.8', '1.12', '3.1', '3.3', '4.2', '4.5', '7.4') or re.fullmatch(r'\w+', t)
            st = reasoned('crates/' + f + '.rt', int(i)); tally[k][st] = tally.get(k, [0, 0])[st] + 1
            files.setdefault(f.replace('/src/', '/'), []).append(i + ('*' if st else '') + (' ' + (t if re.fullmatch(r'\w+', t) else '`' + t.strip().rstrip(',;') + '`') if keep and t else ''))
        for f, ys in files.items():
            if f is None: print('\n'.join('- ' + y for y in ys))
            else: print('- %s: %s' % (f, ', '.join(ys)))
        if k != '8.9': print('- (with a reason beside: %d of %d)' % (tally[k][1], sum(tally[k])))
    fresh = [x for x in L.get('8.9', []) if x.split(' ')[-1] not in {y.split(' ')[-1] for y in LO.get('8.9', [])}]
    if fresh: print('\nOf 8.9 these are new (nothing named them is older): ' + '; '.join(fresh))
print('# What the counts find, then and now\n')
print('By `count.sh` (its rows are numbered as in the counts at the beginning; each command stands there). A place may stand in several rows; no sum is meant. Rows of today\'s form, which should grow, stand apart.\n')
print('| point | row: found then -> found now | today\'s form: then -> now |\n|---|---|---|')
for p in range(1, 9):
    x = [r for r in o if r[0].split('.')[0] == str(p)]
    print('| %d. %s | %s | %s |' % (p, TITLE[p], '; '.join('%s: %s -> %s' % (r[0], r[3], new[r[0]][3]) for r in x if not today(r[1])), '; '.join('%s: %s -> %s' % (r[0], r[3], new[r[0]][3]) for r in x if today(r[1])) or '-'))
print('\n## Each row\n\n| row | what is counted | then | now | of them with a line beside, or at the head of their family or file |\n|---|---|---|---|---|')
for r in o: print('| %s | %s | %s | %s | %s |' % (r[0], r[1], r[3], new[r[0]][3], tally[r[0]][1] if r[0] in tally and sum(tally[r[0]]) else ''))
# more than before
more = [r for r in o if not today(r[1]) and new[r[0]][3].isdigit() and r[3].isdigit() and int(new[r[0]][3]) > int(r[3])]
if more: print('\nMore than before: ' + '; '.join('%s %s (%s -> %s)' % (r[0], r[1], r[3], new[r[0]][3]) for r in more) + '.')
print(buf.getvalue(), end='')
