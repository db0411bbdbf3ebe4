#!/usr/bin/env python3
"""fns.py DIR: each function of DIR/crates/*/src/**/*.rt on one line, fields by tabs:
place (file:line), name, generics, parameters, result type, contract (clauses joined by ' ;; '), body, attributes (pub, #[cycle], extern).
fns.py DIR -w EXPR: place and name of those for which the Python expression EXPR holds, over place, name, gen, params, ret, con, body, attrs."""
import glob, re, sys, os
sys.path.insert(0, os.path.dirname(os.path.abspath(__file__)))
from parts import close
root = sys.argv[1] if len(sys.argv) > 1 else '.'

def flat(s):
    return re.sub(r'\s+', ' ', s).strip()

def functions(root):
    for f in sorted(glob.glob(os.path.join(root, 'crates/*/src/**/*.rt'), recursive=True)):
        s = open(f).read()
        # comments out, lines kept
        t = re.sub(r'//[^\n]*', lambda m: ' ' * len(m.group(0)), s)
        for m in re.finditer(r'(?m)^([ \t]*)((?:pub(?:\([a-z]+\))? |const |unsafe |extern "C" )*)fn (\w+)', t):
            i = m.end()
            gen = ''
            if t[i] == '<':
                d, j = 0, i
                while True:
                    if t[j] == '<': d += 1
                    if t[j] == '>' and t[j-1] != '-':
                        d -= 1
                        if d == 0: break
                    j += 1
                gen = t[i:j+1]; i = j + 1
            if t[i] != '(':
                continue
            j = close(t, i)
            params = t[i+1:j-1]
            k = j
            ret = ''
            rm = re.compile(r'\s*->\s*').match(t, j)
            if rm:
                k = rm.end()
                st = k
                d = 0
                while True:
                    c = t[k]
                    if c in '[(<': d += 1
                    if c in '])' or (c == '>' and t[k-1] != '-'): d -= 1
                    if d == 0 and (c == '{' or c == ';' or re.match(r'\s(requires|ensures|decreases|where)\b', t[k:k+12])):
                        break
                    k += 1
                ret = t[st:k]
            clauses = []
            while True:
                cm = re.compile(r'\s*(requires|ensures|decreases)\b\s*([\w-]*)\s*\{').match(t, k)
                if not cm:
                    wm = re.compile(r'\s*where\b[^{]*').match(t, k)
                    if wm: k = wm.end(); continue
                    break
                e = close(t, cm.end() - 1)
                clauses.append(cm.group(1) + ' ' + cm.group(2) + '{ ' + flat(t[cm.end():e-1]) + ' }')
                k = e
            bm = re.compile(r'\s*\{').match(t, k)
            body = ''
            if bm:
                e = close(t, bm.end() - 1)
                body = flat(t[bm.end():e-1])
            line = t.count('\n', 0, m.start(3)) + 1
            head = t[:m.start()].rstrip().split('\n')[-1].strip()
            attrs = flat(m.group(2)) + (' ' + head.split('(')[0] if head.startswith('#[') else '')
            yield [os.path.relpath(f, root) + ':' + str(line), m.group(3), gen, flat(params).rstrip(','), flat(ret), ' ;; '.join(clauses), body, flat(attrs)]

if __name__ == '__main__':
    where = sys.argv[sys.argv.index('-w') + 1] if '-w' in sys.argv else None
    for r in functions(root):
        if where is None:
            print('\t'.join(x if x else '-' for x in r))
        else:
            place, name, gen, params, ret, con, body, attrs = r
            if eval(where): print(place, name)
