#!/usr/bin/env python3
"""unused.py [DIR]: pub lemmas of crates/*/proofs (not answers or invariants) whose name is nowhere else in any .antt or .rt file
(in an .rt file also as the last part of a path, as in `using(crate::proofs::Made::added)`)."""
import glob, re, sys, os
from collections import Counter
root = sys.argv[1] if len(sys.argv) > 1 else '.'
words = Counter()
defs = []
for f in glob.glob(os.path.join(root, 'crates/**/*.*'), recursive=True):
    if not f.endswith(('.antt', '.rt')) or '/out/' in f: continue
    s = open(f).read()
    words.update(re.findall(r"[^\s(){},;.:]+" if f.endswith('.rt') else r"[^\s(){},;.]+", s))
    if '/proofs/' in f and not f.endswith(('Answers.antt', 'Invariants.antt')):
        for i, l in enumerate(s.split('\n'), 1):
            m = re.match(r"pub (\S+) :", l)
            if m: defs.append((m.group(1), f, i, len(re.findall(r"(?m)^(?:pub )?" + re.escape(m.group(1)) + r"(?=\s)", s))))
for n, f, i, own in sorted(defs, key=lambda x: (x[1], x[2])):
    if words[n] <= own: print('%s:%d %s' % (os.path.relpath(f, root), i, n))
