#!/usr/bin/env python3
"""enums.py DIR: each enum of DIR/crates/*/src on one line: place, name, variants."""
import glob, re, sys, os
root = sys.argv[1] if len(sys.argv) > 1 else '.'
for f in sorted(glob.glob(os.path.join(root, 'crates/*/src/**/*.rt'), recursive=True)):
    s = open(f).read()
    for m in re.finditer(r'(?ms)^(?:pub )?enum (\w+)[^{]*\{(.*?)^\}', s):
        b = re.sub(r'//[^\n]*', '', m.group(2))
        print('%s:%d %s { %s }' % (os.path.relpath(f, root), s.count('\n', 0, m.start()) + 1, m.group(1), re.sub(r'\s+', ' ', b).strip()))
