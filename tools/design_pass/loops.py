#!/usr/bin/env python3
"""loops.py DIR: each while loop of DIR/crates/*/src: place, counted or walk, condition. Counted: the condition compares a variable from below, and the body adds a
number to that variable."""
import glob, re, sys, os
sys.path.insert(0, os.path.dirname(os.path.abspath(__file__)))
from fns import close
root = sys.argv[1] if len(sys.argv) > 1 else '.'
for f in sorted(glob.glob(os.path.join(root, 'crates/*/src/**/*.rt'), recursive=True)):
    s = re.sub(r'//[^\n]*', lambda m: ' ' * len(m.group(0)), open(f).read())
    for m in re.finditer(r'(?m)^ *while (.*?) \{\n', s):
        c = m.group(1)
        b = s[m.end() - 2:close(s, m.end() - 2)]
        v = re.match(r'(?:wide\()?([a-z]\w*)\)?(?: \+ \d+)? < ', c)
        counted = v and re.search(r'\b%s = %s \+ \d+;' % (v.group(1), v.group(1)), b)
        print('%s:%d: %s: while %s' % (os.path.relpath(f, root), s.count('\n', 0, m.start()) + 1, 'counted' if counted else 'walk', c))
