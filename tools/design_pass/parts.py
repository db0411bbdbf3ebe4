"""parts.py: what the pages' scripts share: the public items of src/ and the declarations of .antt files, by text."""
import collections, glob, os, re

def uncomment(s):
    """Rattle source without // comments (strings kept); lines stay."""
    out, i, n = [], 0, len(s)
    while i < n:
        c = s[i]
        if c == '"':
            j = i + 1
            while s[j] != '"':
                j += 2 if s[j] == '\\' else 1
            out.append(s[i:j + 1]); i = j + 1
        elif s.startswith('//', i):
            j = s.find('\n', i); i = n if j < 0 else j
        else:
            out.append(c); i += 1
    return ''.join(out)

def close(s, i):
    """Index after the bracket that closes the one at s[i]; strings are left alone."""
    pairs = {'(': ')', '[': ']', '{': '}'}
    stack = []
    while i < len(s):
        c = s[i]
        if c == '"':
            i += 1
            while s[i] != '"':
                i += 2 if s[i] == '\\' else 1
        elif c in pairs: stack.append(pairs[c])
        elif stack and c == stack[-1]:
            stack.pop()
            if not stack: return i + 1
        i += 1
    return i

def flat(s):
    s = re.sub(r'\s+', ' ', s).strip()
    return re.sub(r',? ?\) ?', lambda m: ')' + (' ' if m.group(0).endswith(' ') else ''), re.sub(r'\( ', '(', s)).strip()

def dedent(t):
    ls = [l.rstrip() for l in t.split('\n')]
    ls = [l for l in ls if l.strip()]
    k = min((len(l) - len(l.lstrip()) for l in ls), default=0)
    return '\n'.join(l[k:] for l in ls)

ATTR = re.compile(r'#\[(derive|repr|unsafe|export|no_mangle)')

def head_end(t, j):
    """From behind a function's name: where its head (signature and clauses) ends; the clauses."""
    if t[j] == '<':
        d = 0
        while True:
            if t[j] == '<': d += 1
            if t[j] == '>' and t[j - 1] != '-':
                d -= 1
                if d == 0: j += 1; break
            j += 1
    j = close(t, j)
    clauses = []
    sig = None
    while True:
        m = re.compile(r'\s*(requires|ensures|decreases)\b\s*([\w-]*)\s*\{').match(t, j)
        if m:
            if sig is None: sig = j
            e = close(t, m.end() - 1)
            clauses.append((m.group(1), flat(t[m.end():e - 1])))
            j = e
            continue
        if t[j] in '{;':
            return j, (j if sig is None else sig), clauses
        if t[j] in '([':
            j = close(t, j); continue
        j += 1

def items(root, private=False):
    """Each public item of src/: (crate, module, name) -> dict kind, text, flat, sig, clauses. With private: the other functions too."""
    out = collections.OrderedDict()
    for f in sorted(glob.glob(os.path.join(root, 'crates/*/src/**/*.rt'), recursive=True)):
        crate = f.split('/crates/')[1].split('/')[0]
        mod = f.split('/src/')[1][:-3].replace('/', '::')
        mod = '' if mod in ('lib', 'main') else mod
        t = uncomment(open(f).read())
        impls = []
        for m in re.finditer(r'(?m)^(impl\b[^{]*)\{', t):
            e = close(t, m.end() - 1)
            impls.append((m.start(), e, flat(m.group(1))))
        def where(i):
            for a, b, h in impls:
                if a < i < b: return h
        for a, b, h in impls:
            if ' for ' in h:
                body = t[a:b]
                lines = []
                k = body.find('{') + 1
                for g in re.finditer(r'(?m)^ *ghost \w+\s*=\s*\{', body):
                    lines.append(dedent(body[g.start():close(body, g.end() - 1)]))
                for g in re.finditer(r'(?m)^ *((?:pub )?(?:const )?fn \w+)', body):
                    e, s, cl = head_end(body, g.end())
                    lines.append(dedent(body[g.start():e]))
                txt = h + ' {\n' + '\n'.join('    ' + l for x in lines for l in x.split('\n')) + '\n}'
                out[crate, mod, h] = dict(kind='impl', text=txt, flat=flat(txt), pub=True, file=f, line=t.count('\n', 0, a) + 1)
        for m in re.finditer(r'(?m)^([ \t]*)((?:pub |const |unsafe |extern "C" )*)(fn|struct|enum|trait|const|type) (\w+)', t):
            pre, kind, name = m.group(2), m.group(3), m.group(4)
            if kind == 'const' and t[m.end():m.end() + 1] != ':': continue
            pub = 'pub ' in pre
            h = where(m.start())
            if h and ' for ' in h: continue
            if not pub and not (private and kind == 'fn'): continue
            # attributes in front
            k = m.start(); attrs = []
            lines = t[:k].rstrip('\n').split('\n') if k else []
            while lines and lines[-1].strip().startswith('#['):
                attrs.insert(0, lines.pop().strip())
            attrs = [a for a in attrs if ATTR.match(a)]
            if kind == 'fn':
                e, s, cl = head_end(t, m.end())
                text = t[m.start():e]
                sig = flat(t[m.start():s])
            elif kind in ('const', 'type'):
                e = t.find(';', m.end()) + 1; text = t[m.start():e]; sig, cl = flat(text), []
            else:
                j = m.end()
                while t[j] not in '{;(': j += 1
                if t[j] == ';': e = j + 1
                elif t[j] == '(': e = t.find(';', j) + 1
                else:
                    e = close(t, j)
                    w = re.compile(r'\s*invariant\b').match(t, e)
                text = t[m.start():e]; sig, cl = flat(text), []
            text = '\n'.join(attrs + [dedent(text)])
            key = name
            if h: key = re.sub(r'^impl(<[^>]*>)? ', '', h).strip() + '::' + name
            k = (crate, mod, key)
            out[k] = dict(kind=kind, text=text, flat=flat(text), sig=sig, clauses=cl, pub=pub, file=f, line=t.count('\n', 0, m.start()) + 1)
    return out

def spot(k):
    return '::'.join(x for x in k if x)

HEAD = re.compile(r"^ *((?:(?:abbrev|unfoldable|opaque|pub|instance|private|unfolding)\s+)*)(?:(record|data)\s+)?([^\s:(){},;]+)((?:\s+[({][^:]*?:.*?[)}]|\s+\{[^}]*\}|\s+\([^)]*\)| [a-zA-Z]\w*)*)\s*:(?=\s|$)")

def antt(path):
    """The declarations of a .antt file: a list of dicts name, mods (abbrev ..), kind (record, data, definition, theorem), context, statement, body, text."""
    raw = open(path, encoding='utf-8').read().split('\n')
    uses = {}
    decls, cur = [], None
    blocks = [(0, '')]
    pending = None
    byname = {}
    line = 0
    usetext = ''
    for l in raw:
        line += 1
        l = re.sub(r'(^|\s)--(\s.*|─.*|$)', '', l).rstrip()
        if not l.strip(): continue
        ind = len(l) - len(l.lstrip())
        if pending is not None:
            if ind > blocks[-1][0]:
                if not pending.rstrip().endswith('where') and not re.search(r'\bmutual$', pending):
                    pending += ' ' + l.strip(); continue
                blocks.append((ind, pending))
            pending = None
        while len(blocks) > 1 and ind < blocks[-1][0]:
            blocks.pop(); cur = None
        if ind > blocks[-1][0]:
            if cur is not None: cur['lines'].append(l)
            elif usetext: uses['\n'] = uses.get('\n', '') + ' ' + l.strip()
            continue
        s = l.strip()
        if re.match(r'(pub )?(use|mod|open|ghost use)\b', s):
            cur = None; usetext = s
            uses['\n'] = uses.get('\n', '') + '\n' + s
            continue
        usetext = ''
        if re.match(r'(infix[lr]?|prefix|postfix)\b', s):
            cur = None; continue
        if re.match(r'(pub )?module\b', s) or re.match(r'((abbrev|unfoldable|pub) )*mutual$', s):
            cur = None; pending = s; continue
        m = HEAD.match(l)
        if m and not re.match(r'^(unfolding|where|let|in)$', m.group(3)):
            cur = dict(name=m.group(3), mods=m.group(1).strip(), rec=m.group(2) or '', context=' / '.join(b[1] for b in blocks[1:]), lines=[l], indent=ind, line=line, file=path)
            decls.append(cur); byname[m.group(3)] = cur
            continue
        w = s.split()[0]
        if w != 'unfolding' and w in byname and byname[w] in decls: cur = byname[w]
        if cur is not None: cur['lines'].append(l)
    for d in decls:
        ls = d['lines']
        mods = d['mods'] + ' ' + d['context']
        if d['rec']:
            d['kind'] = d['rec']; st, body = ls, []
        else:
            st = [ls[0]]
            i = 1
            while i < len(ls) and len(ls[i]) - len(ls[i].lstrip()) > d['indent']:
                st.append(ls[i]); i += 1
            body = ls[i:]
            d['kind'] = 'definition' if re.search(r'\b(abbrev|unfoldable)\b', mods) else 'theorem'
        ded = lambda x: '\n'.join(y[d['indent']:] if y[:d['indent']].strip() == '' else y for y in x)
        d['statement'], d['body'] = ded(st), ded(body)
        d['text'] = d['statement'] + ('\n' + d['body'] if body else '')
        d['fs'], d['fb'], d['ft'] = (re.sub(r'\s+', ' ', x).strip() for x in (d['statement'], d['body'], d['text']))
    return decls, uses.get('\n', '')

def imports(text):
    """Local name -> the full paths that the use lines give it."""
    out = {}
    def put(n, x): out.setdefault(n, []).append(x)
    for m in re.finditer(r'use ([^\n]+)', text):
        s = m.group(1).strip()
        b = re.match(r'(\S+?)\.\{(.*)\}\s*$', s)
        if b:
            for x in b.group(2).split(','):
                x = x.strip()
                if not x: continue
                if ' as ' in x:
                    a, n = [y.strip() for y in x.split(' as ')]
                    put(n, b.group(1) + '.' + a)
                else: put(x, b.group(1) + '.' + x)
        elif ' as ' in s:
            a, n = [y.strip() for y in s.split(' as ')]
            put(n, a)
        else:
            put(s.split('.')[-1], s)
    return out

def specs(root, folder='specs'):
    out = []
    for f in sorted(glob.glob(os.path.join(root, 'crates/*/%s/**/*.antt' % folder), recursive=True)):
        crate = f.split('/crates/')[1].split('/')[0]
        mod = f.split('/%s/' % folder)[1][:-5].replace('/', '.')
        ds, u = antt(f)
        im = imports(u)
        seen = collections.Counter()
        for d in ds:
            seen[d['name']] += 1
            d['key'] = (crate, mod, d['name'], seen[d['name']])
            d['imports'] = im
            out.append(d)
    return out
