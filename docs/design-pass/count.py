#!/usr/bin/env python3
# inventory.py p1..p8: the candidates of one point below the present folder (crates/*/src/**/*.rt; p8: crates/*/proofs), with their numbers.
# inventory.py sum: the numbers alone, of all points.
# It goes by the shape of the text and knows no name of the repository (but `kind`, `code`, `case`, `number` and the like as words for a number
# that stands for something). Tests (#[cfg(test)] mod ..) are left out.
import difflib, glob, re, sys
from collections import defaultdict, namedtuple
from itertools import combinations

Fn = namedtuple('Fn', 'crate file line name params ret clauses body bline')
Ty = namedtuple('Ty', 'crate file line sort name body')
INT = r'(?:u8|u16|u32|u64|u128|usize|i8|i16|i32|i64|i128|isize)'

def plain(s):
    "The text with comments and what stands in strings blanked; lines stay."
    out, i = [], 0
    while i < len(s):
        c = re.compile(r"b?'(\\.[^']*|[^\\'\n])'").match(s, i)
        if s.startswith('//', i):
            while i < len(s) and s[i] != '\n': i += 1
        elif c: out.append('Ch'); i = c.end()
        elif s[i] == '"':
            j = i + 1
            while s[j] != '"': j += 2 if s[j] == '\\' else 1
            out.append('"' + re.sub(r'[^\n]', '_', s[i + 1:j]) + '"'); i = j + 1
        else: out.append(s[i]); i += 1
    return ''.join(out)

def close(s, i):
    "The place after the bracket that closes the one at i."
    pair, d = {'(': ')', '[': ']', '{': '}'}[s[i]], 0
    for j in range(i, len(s)):
        d += (s[j] == s[i]) - (s[j] == pair)
        if d == 0: return j + 1
    return len(s)

def top(s, sep=',', angle=True):
    "The parts of s between seps outside every bracket."
    parts, d, cur = [], 0, ''
    for c in s:
        if c in '([{' or (angle and c == '<'): d += 1
        elif c in ')]}' or (angle and c == '>' and not cur.endswith(('-', '='))): d -= 1
        if c == sep and d == 0: parts.append(cur); cur = ''
        else: cur += c
    return [p.strip() for p in parts + [cur] if p.strip()]

def load():
    fns, tys, texts = [], [], {}
    for path in sorted(glob.glob('crates/*/src/**/*.rt', recursive=True)):
        crate, file = path.split('/')[1], path.split('/src/')[1]
        s = plain(open(path).read())
        for m in re.finditer(r'#\[cfg\(test\)\]\s*(pub )?mod \w+ *\{', s):
            e = close(s, m.end() - 1); s = s[:m.start()] + re.sub(r'[^\n]', ' ', s[m.start():e]) + s[e:]
        texts[crate + '/' + file] = s
        at = lambda i: s.count('\n', 0, i) + 1
        for m in re.finditer(r'\bfn (\w+)\s*(?=[<(])', s):
            if re.search(r'ghost [^\n]*$', s[:m.start()]): continue
            o, d = m.end(), 0
            while s[o] != '(' or d: d += (s[o] == '<') - (s[o] == '>' and s[o - 1] not in '-='); o += 1
            j = close(s, o); params = top(s[o + 1:j - 1]); ret, clauses, body, b = '', [], None, j
            while b < len(s):
                k = re.compile(r'\s*').match(s, b).end(); r = s[k:]
                c = re.match(r'(requires|ensures)\b[^{;]*', r)
                if r.startswith('->'):
                    e = re.compile(r'[^{;]*?(?=\s*(\brequires\b|\bensures\b|\bwhere\b|[{;]))', re.S).match(s, k + 2); ret = e.group().strip(); b = e.end()
                elif c: o = k + c.end(); b = close(s, o); clauses.append((c.group(1), ' '.join(s[o + 1:b - 1].split())))
                elif r.startswith('where'): b = k + re.match(r'where[^{;]*?(?=\brequires\b|\bensures\b|[{;])', r, re.S).end()
                elif r.startswith('{'): body = s[k + 1:close(s, k) - 1]; b = k; break
                else: break
            if body is not None: fns.append(Fn(crate, file, at(m.start()), m.group(1), params, ret, clauses, body, at(b)))
        for m in re.finditer(r'^[ \t]*(?:pub(?:\([^)]*\))? )?(struct|enum) (\w+)[^{;(\n]*([{(;])', s, re.M):
            o = m.end() - 1
            tys.append(Ty(crate, file, at(m.end()), m.group(1), m.group(2), '' if s[o] == ';' else s[o + 1:close(s, o) - 1]))
    return fns, tys, texts

def name(f): return f'{f.crate}/{f.file}:{f.line} {f.name}'
def flat(s): return ' '.join(s.split())

def arms(body):
    "For each match of the body: its head, and its arms as (pattern, value)."
    out = []
    for m in re.finditer(r'\bmatch\b([^{;]*)\{', body):
        s, i, res = body[m.end():close(body, m.end() - 1) - 1], 0, []
        while '=>' in s[i:]:
            j = s.index('=>', i); k = re.compile(r'\s*').match(s, j + 2).end()
            if s[k:k + 1] == '{': e = close(s, k); n = e
            else:
                e, d = k, 0
                while e < len(s) and not (s[e] == ',' and d == 0): d += (s[e] in '([{') - (s[e] in ')]}'); e += 1
                n = e + 1
            res.append((flat(s[i:j]).strip(' ,'), flat(s[k:e]))); i = n
        out.append((flat(m.group(1)), res))
    return out

def show(title, rows):
    print(f'## {title}: {len(rows)}')
    for r in rows: print('  ', r)

def p1(fns, tys, texts):
    rows = []
    pay = defaultdict(int)
    for t in tys:
        if t.sort == 'enum':
            for v in top(t.body):
                p = re.sub(r'^\w+', '', flat(v)).strip()
                if p: pay[p] += 1
    for t in tys:
        if t.sort != 'enum': continue
        vs = [flat(v) for v in top(t.body)]; ps = [re.sub(r'^\w+', '', v).strip() for v in vs]
        shape = 'Option' if len(vs) == 2 and sum(map(bool, ps)) == 1 else 'Result' if len(vs) == 2 and all(ps) else 'payload of another enum' if any(re.search('[,:]', p) and pay[p] > 1 for p in ps) else ''
        if shape: rows.append(f'{name(t)}: {shape}: {" | ".join(vs)}')
    show('1a own enums of two cases, or with a case that other enums have too', rows)
    rows = []
    for t in tys:
        fs = top(t.body) if t.sort == 'struct' else []
        b = [f for f in fs if re.search(r': bool$', f)]; n = [f for f in fs if re.search(r'\b(kind|case|code|number|which|tag|state|status): ' + INT + '$', f)]
        if (b or n) and len(fs) > 1: rows.append(f'{name(t)}: {", ".join(flat(f) for f in fs)}')
    show('1b structs with a bool or a code beside other fields', rows)
    show('1b parameters that are a bool', [f'{name(f)}: {p}' for f in fns for p in f.params if re.search(r': bool$', p)])
    rows = []
    for f in fns:
        if not re.fullmatch(INT, f.ret): continue
        tail = flat(f.body).rstrip('} ').split(' ')[-1]
        lits = re.findall(r'(?:=>|return|\{)\s*(\d+|[A-Z][A-Z_]+)\s*[,;}]', f.body) + ([tail] if re.fullmatch(r'\d+|[A-Z][A-Z_]+', tail) else [])
        if lits: rows.append(f'{name(f)} -> {f.ret}: {" ".join(lits)}')
    lit = rows; show('1c functions that answer a number and have a literal or a constant as an answer', rows)
    p1_second(fns)
    rows, n = [], 0
    for f in fns:
        k = [p for h, a in arms(f.body) for p, v in a if re.match(r'\d', p)]
        if k: rows.append(f'{name(f)}: {len(k)}: {" ".join(k)}'); n += len(k)
    show(f'1d functions that match numbers (arms: {n})', rows)
    rows = []
    for f in fns:
        for i, l in enumerate(f.body.split('\n')):
            for m in re.finditer(r'([\w.]+(?:\[[^\]]*\])?) (==|!=|<=|>=|<|>) (\d+)\b', l):
                if re.search(r'(kind|code|case|tag|which|value)$|\]$', m.group(1)) or (re.match(r'\s*(if|while|match)\b', l) and int(m.group(3)) > 1): rows.append(f'{f.crate}/{f.file}:{f.bline + i} {f.name}: {m.group()}')
    show('1d comparisons with a literal: of a kind, code, case, value or element, or in a test with a literal from 2 on', rows)
    show('1e constants that are numbers', [f'{k}:{s.count(chr(10), 0, m.start()) + 1} {m.group(1)} = {m.group(2)}' for k, s in texts.items() for m in re.finditer(r'\bconst (\w+): ' + INT + r' = (\d+);', s)])
    rows = []
    for f in fns:
        for i, l in enumerate(f.body.split('\n')):
            for m in re.finditer(r'\b(number|code|kind|case|tag)(:| =) (\d+)\b', l): rows.append(f'{f.crate}/{f.file}:{f.bline + i} {f.name}: {m.group()}')
    show('1f literals for a refusal, a case or a code, in a field or an assignment', rows)
    show('1f functions that answer a number, with literals in their arms or returns (those from 1 on)', [r for r in lit if re.search(r': .*\b[1-9]', r)])
    rows = []
    for f in fns:
        c = re.findall(r'\.\w+\(\w+, (\d+),', f.body)
        if c: rows.append(f'{name(f)}: {len(c)}: {" ".join(c)}')
    show(f'1g functions that write kinds: method calls with a literal behind the first argument (calls: {sum(int(r.split(": ")[1]) for r in rows)})', rows)

def p1_second(fns):
    rows, by = [], {(f.crate, f.name): f for f in fns}
    waiting = [(f.crate, g) for f in fns for v, g in re.findall(r'(\w+) = (\w+)\(', f.body) if re.search(r'\b' + v + r' != 0\b', f.body)]
    seen = set()
    while waiting:
        k = waiting.pop(); f = by.get(k)
        if k in seen or not f or not re.fullmatch(INT, f.ret): continue
        seen.add(k); rows.append(name(f))
        waiting += [(f.crate, m.group(1)) for h, a in arms(f.body) for p, v in a for m in [re.match(r'(\w+)\(', v)] if m] + [(f.crate, m) for h, a in arms(f.body) for p, v in a for h2, a2 in arms(v) for q, w in a2 for m in re.findall(r'^(\w+)\(', w)]
    show('1c second: functions whose number a caller tests against 0, and those that it comes from', sorted(rows))

KW = set('let mut while if else match return for in loop break continue as true false self Self'.split())
def shape(body):
    r = re.findall(r"'?[A-Za-z_]\w*|\d\w*|=>|->|==|!=|<=|>=|\+=|-=|&&|\|\||::|\.\.=?|\S", body)
    return [t if t in KW or not re.match(r"'?[A-Za-z_\d]", t) else 'N' if t[0].isdigit() else 'I' for t in r]

def p2(fns, tys, texts, least=0.85, size=9):
    fs, up = [shape(f.body) for f in fns], list(range(len(fns)))
    def root(x):
        while up[x] != x: x = up[x]
        return x
    for i, j in combinations(range(len(fs)), 2):
        a, b = sorted((len(fs[i]), len(fs[j])))
        if a >= size and a >= 0.7 * b:
            m = difflib.SequenceMatcher(None, fs[i], fs[j], autojunk=False)
            if m.quick_ratio() >= least and m.ratio() >= least: up[root(i)] = root(j)
    g = defaultdict(list)
    for i in range(len(fs)): g[root(i)].append(i)
    show(f'2a families of functions whose bodies are alike ({least}, names and numbers apart)', [', '.join(f'{name(fns[i])}({len(fs[i])})' for i in c) for c in g.values() if len(c) > 1])
    d = defaultdict(list)
    for f in fns: d[f.name].append(f)
    show('2b names of functions that stand in two places', [f'{n} {len(v)}: ' + ', '.join(f'{f.crate}/{f.file}:{f.line}' for f in v) for n, v in sorted(d.items()) if len(v) > 1])
    d = defaultdict(list)
    for t in tys:
        k = tuple(re.sub(r'\bpub(\([^)]*\))? ', '', flat(x)) for x in top(t.body))
        d[(t.sort, tuple(re.sub(r'^\w+', '_', x) if t.sort == 'enum' else re.sub(r': ' + INT + '$', ': _', x) for x in k))].append(t)
    show('2c types with the same fields, an integer being like another', [' = '.join(name(t) for t in v) for k, v in d.items() if len(v) > 1])
    d = defaultdict(list)
    for t in tys:
        if t.sort == 'enum':
            for v in top(t.body):
                p = re.sub(r'^\w+\s*', '', flat(v))
                if p.count(',') or p.count(':') > 1: d[p].append(t)
    show('2c payloads that stand in several enums', [f'{p}: {len(v)}: ' + ', '.join(name(t) for t in v) for p, v in d.items() if len(v) > 1])
    d = defaultdict(set)
    for k, s in texts.items():
        for m in re.finditer(r'\bconst (\w+): ' + INT + r' = (\d+);', s): d[m.group(1)].add(f'{k} {m.group(2)}')
    show('2d constants with one name', [f'{n}: {sorted(v)}' for n, v in d.items() if len(v) > 1])
    d = defaultdict(list)
    for k, s in texts.items():
        for m in re.finditer(r'(?<![\w.])(\d{3,})\b(?!\])', re.sub(r'(?m)^\s*(ghost use|requires|ensures).*$', '', s)): d[m.group(1)].append(k)
    show('2d literals from 100 on that stand in two crates', [f'{n}: {len(v)} in {sorted(set(v))}' for n, v in sorted(d.items()) if len({x.split("/")[0] for x in v}) > 1])

    d = defaultdict(set)
    for f in fns:
        for k, c in f.clauses:
            for p in conj(c):
                m = re.search(r'≡\s*\(?([A-Za-z_]\w*)(?: \(?([A-Za-z_]\w*))?', p)
                if k == 'ensures' and m: d[m.group(1) + (' ' + m.group(2) if m.group(1).endswith('_of') and m.group(2) else '')].add(name(f))
    show('2e definitions that the contracts of two functions or more say the result by', [f'{h}: {len(v)}: ' + ', '.join(sorted(v)) for h, v in sorted(d.items(), key=lambda x: -len(x[1])) if len(v) > 1])

def loops(f):
    for m in re.finditer(r"(?:'\w+: )?\b(while|loop|for)\b([^{;]*)\{", f.body):
        yield m.group(1), flat(m.group(2)), f.body[m.end():close(f.body, m.end() - 1) - 1], f.bline + f.body.count('\n', 0, m.start())

def p3(fns, tys, texts):
    rows, rest = [], []
    for f in fns:
        for k, c, b, l in loops(f):
            r = f'{f.crate}/{f.file}:{l} {f.name}: {k} {c}'
            v = [x for x in re.findall(r'(\w+) [+-]= 1;', b) if re.search(r'\b' + x + r'\b', c)]
            (rows if k == 'while' and v else rest).append(r + (f'  [{v[0]}]' if v else ''))
    show('3 while loops whose condition names what the body counts by one', rows)
    show('3 other loops', rest)

def p4(fns, tys, texts):
    out = {k: [] for k in ('4a min or max', '4b a difference that stops at 0', '4c arithmetic that a method does', "4c a type's greatest number as a literal", '4d struct literals that take fields over from one value', "4e a case handed on as the same case, or as another type's", '4f an element or 0', '4g a write where there is room', '4h equality: a loop that compares', '4h equality: a match whose arms are true and false', '4h equality: fields or elements compared one by one', '4i a copy element by element', '4j casts', '4k printing: functions that print a value or its cases')}
    for f in fns:
        b, w = flat(f.body), name(f)
        for m in re.finditer(r'if (.+?) (<=|<|>=|>) (.+?) \{ (.+?) \} else \{ (.+?) \}', b):
            a, o, c, x, y = m.groups(); strip = lambda z: re.sub(r' as ' + INT, '', z)
            if {strip(x), strip(y)} == {strip(a), strip(c)}: out['4a min or max'].append(f'{w}: {m.group()}')
            elif re.fullmatch(r'(.+) - (.+)', x) and {*re.fullmatch(r'(.+) - (.+)', x).groups()} == {a, c}: out['4b a difference that stops at 0'].append(f'{w}: {m.group()}')
            elif re.fullmatch(r'\d+', y) and strip(x) == strip(a) or re.fullmatch(r'\d+', x) and strip(y) in (strip(a), strip(c)): out['4a min or max'].append(f'{w}: {m.group()}')
            elif re.search(r'\.len\(\)|^\d+$', c) and re.fullmatch(r'\w+\[' + re.escape(a) + r'\]', x): out['4f an element or 0'].append(f'{w}: {m.group()}')
            elif re.fullmatch(r'\w+\[\w+\]', x) and x.endswith(f'[{a}]'): out['4f an element or 0'].append(f'{w}: {m.group()}')
        for m in re.finditer(r'if (\w+) < ([\w.]+(?:\(\))?|\d+) \{ (\w+)\[\1\] = [^;]+; \}', b): out['4g a write where there is room'].append(f'{w}: {m.group()}')
        for m in re.finditer(r'[^;{}]*% 4294967296[^;{}]*|\bTRUE - \w+|\bwrapping_\w+_u\d+\(|\b\w+ >> \w+\b|\w+\[\w+\] *<<|1u\d+ << \w+|\w+ as u64\) << \w+', b): out['4c arithmetic that a method does'].append(f'{w}: {m.group().strip()}')
        for m in re.finditer(r'4294967295|18446744073709551615|\b65535\b', b): out["4c a type's greatest number as a literal"].append(w)
        via = {x: (v, x) for x, v, y in re.findall(r'let (\w+) = (\w+)\.(\w+);', b) if x == y}
        for m in re.finditer(r'((?:[A-Z]\w*::)?[A-Z]\w*) \{ ', b):
            t = top(b[m.end():close(b, m.end() - 2) - 1], ',', False)
            if '..' in ' '.join(x for x in t if x.startswith('..')) or not all(re.match(r'\w+(: |$)', x) for x in t) or b[close(b, m.end() - 2):].lstrip().startswith('=>'): continue
            src = defaultdict(list)
            for x in t:
                k = re.fullmatch(r'(\w+): (\w+)\.\1', x)
                if k: src[k.group(2)].append(k.group(1))
                elif x in via: src[via[x][0]].append(x)
            if src:
                v = max(src, key=lambda z: len(src[z])); out['4d struct literals that take fields over from one value'].append(f'{w}: {m.group(1)}: {len(src[v])} of {len(t)} from {v}')
        for h, a in arms(f.body):
            for p, v in a:
                q = re.sub(r'^\{ ?(return )?|;? ?\}$', '', v) if v.startswith('{') else v
                pm, vm = re.fullmatch(r'((?:\w+::)+\w+) ?([({].*[)}])', p), re.fullmatch(r'((?:\w+::)+\w+) ?([({].*[)}])', q.strip())
                if pm and vm and set(re.findall(r'\w+', pm.group(2))) <= set(re.findall(r'\w+', vm.group(2))): out['4e a case handed on as the same case, or as another type\'s'].append(f'{w}: {p} => {q.strip()[:60]}')
            vs = [v for p, v in a]
            if sum(v in ('true', 'false') for v in vs) >= 2 or (len(vs) == 2 and 'false' in vs): out['4h equality: a match whose arms are true and false'].append(f'{w}: match {h}')
        for k, c, bd, l in loops(f):
            if re.search(r'\w+\[\w+\] = \w+\[\w+\]|\w+\[\w+ \+ \w+\] = \w+\[\w+ \+ \w+\]', bd): out['4i a copy element by element'].append(f'{w}: {flat(bd)}')
            if re.search(r'if \w+\[\w+\] != [^{]+\{\s*return false', bd): out['4h equality: a loop that compares'].append(f'{w}: {flat(bd)[:60]}')
        if len(re.findall(r'\(?\b[\w.]+(?:\[\d+\])? == [^&|]+\)? &', b)) >= 1: out['4h equality: fields or elements compared one by one'].append(f'{w}: {b[:90]}')
        for m in re.finditer(r' as ' + INT, b): out['4j casts'].append(w)
        if 'Print' in ' '.join(f.params) and re.search(r'match |: u32|: u64', b + ' '.join(f.params)): out['4k printing: functions that print a value or its cases'].append(w)
    for k in sorted(out): show(k, out[k])

def conj(s):
    out = []
    for p in top(s, '×', False):
        while p.startswith('(') and close(p, 0) == len(p): p = p[1:-1].strip()
        out += conj(p) if len(top(p, '×', False)) > 1 else [p]
    return out

def p5(fns, tys, texts):
    d = defaultdict(set)
    for f in fns:
        for k, c in f.clauses:
            for p in conj(c): d[re.sub(r'\.(now|old|new)\b', '', p)].add(name(f))
    rows = sorted(((len(v), q, sorted(v)) for q, v in d.items() if len(v) > 2), key=lambda r: -r[0])
    show('5a facts that stand in the clauses of three functions or more', [f'{n} {q} | {", ".join(v)}' for n, q, v in rows])
    rows = []
    for crate in sorted({f.crate for f in fns}):
        ps = [(f, frozenset((re.sub(r'^mut ', '', a), re.sub(r'^&(\'\w+ )?(mut )?', '&', b)) for a, b in (re.split(r':\s*', p, maxsplit=1) for p in f.params if ':' in p))) for f in fns if f.crate == crate]
        while True:
            best = None
            for (f, a), (g, b) in combinations(ps, 2):
                s = a & b
                if len(s) < 2: continue
                v = [h for h, c in ps if s <= c]
                if len(v) > 2 and (best is None or (len(v) - 1) * (len(s) - 1) > best[0]): best = ((len(v) - 1) * (len(s) - 1), s, v)
            if not best: break
            rows.append(f'{crate}: {", ".join(sorted(a + ": " + b for a, b in best[1]))} | {len(best[2])}: {", ".join(h.name for h in best[2])}')
            ps = [(f, a - best[1] if best[1] <= a else a) for f, a in ps]
    show('5b parameters that stand together in three functions of a crate or more (the largest bundle first, then what is left)', rows)
    show('5b functions with six parameters or more', [f'{name(f)} {len(f.params)}' for f in fns if len(f.params) > 5])

    d = defaultdict(lambda: defaultdict(set))
    for f in fns:
        ps = {re.sub(r'^mut ', '', p.split(':')[0]).strip() for p in f.params} | {'result', 'self'}
        for _, c in f.clauses:
            for m in re.finditer(r'(?<![\w.])([A-Za-z_]\w*)((?: \w+(?:\.\w+)*)+)', c):
                a = []
                for x in m.group(2).split():
                    if x.split('.')[0] not in ps: break
                    a.append(re.sub(r'\.(now|old|new)$', '', x))
                if m.group(1) not in ps and len(set(a) - {'result'}) > 1: d[(f.crate, m.group(1))][' '.join(a)].add(name(f))
    show('5b second: definitions that take two parameters or more together in the clauses of two functions or more', [f'{c}: {w}: {len(set().union(*v.values()))}: ' + ' | '.join(v) for (c, w), v in sorted(d.items()) if len(set().union(*v.values())) > 1])

def p6(fns, tys, texts):
    show('6a arrays of a fixed size, where they are made', [f'{f.crate}/{f.file}:{f.bline + f.body.count(chr(10), 0, m.start())} {f.name}: {flat(m.group())}' for f in fns for m in re.finditer(r'let (mut )?\w+(: [^=;]+)? = (&mut )?\[[^\]]*; *[\w:]+\]', f.body)])
    show('6b fields that are arrays of a fixed size', [f'{name(t)}: {flat(p)}' for t in tys for p in top(t.body) if re.search(r'\[[^\]]*; *[^\]]+\]', p)])
    show('6b structs with an index or a count among their fields', [f'{name(t)}: {", ".join(flat(p) for p in top(t.body))}' for t in tys if t.sort == 'struct' and len(re.findall(r': usize\b', t.body)) >= 1])
    rows = []
    for f in fns:
        for n in sorted({x for p in f.params for x in re.findall(r'; *(\w+)\]', p)}):
            v = [p for p in f.params if re.search(r'; *' + n + r'\]', p)]
            if len(v) > 1: rows.append(f'{name(f)}: {", ".join(v)}')
    show('6c functions with two arrays of one length or more among their parameters', rows)
    show('6c functions that make two arrays of one length or more', [f'{name(f)}: {n}: {k}' for f in fns for n, k in sorted({x: len(re.findall(r'= (?:&mut )?\[[^\]]*; *%s\]' % x, f.body)) for x in re.findall(r'= (?:&mut )?\[[^\]]*; *(\w+)\]', f.body)}.items()) if k > 1])
    show('6d loops that leave early at a test (searched by hand)', [f'{f.crate}/{f.file}:{l} {f.name}: {k} {c}' for f in fns for k, c, b, l in loops(f) if re.search(r'\b(return|break)\b', b)])
    show('6e slices cut at a stored length', [f'{f.crate}/{f.file}:{f.bline + f.body.count(chr(10), 0, m.start())} {f.name}: {m.group()}' for f in fns for m in re.finditer(r'&(?:mut )?\w+\[\.?\.?[\w. *]+(?:\.\.)?[\w. *]*\]', f.body) if '..' in m.group()])

def p7(fns, tys, texts):
    rows = []
    for f in fns:
        for h, a in arms(f.body):
            c = [m.group(1) for p, v in a for m in [re.match(r'\{? ?(?:return )?((?:\w+(?:::|\.))*\w+)\(', v)] if m and not re.match(r'(Some|Ok|Err|None)$', m.group(1))]
            n = [x for x in c if re.search(r'(^|::|\.)[a-z]\w*$', x)]
            if len(n) > 2: rows.append(f'{name(f)}: match {h}: {len(a)} arms, {len(n)} calls of {len(set(n))} functions: {" ".join(dict.fromkeys(n))}')
    show('7 a match with three arms or more that call a function', rows)
    show('7 functions that test a bool parameter', [f'{name(f)}: {p}' for f in fns for p in f.params if p.endswith(': bool') and re.search(r'\bif !?' + p.split(':')[0].strip() + r'\b', f.body)])

    rows, names = [], {f.name for f in fns}
    for f in fns:
        c = {m for h, a in arms(f.body) for p, v in a for m in re.findall(r'\b([a-z_]\w*)\(', v) if m in names and m != f.name}
        if len(c) > 1: rows.append(f'{name(f)}: {" ".join(sorted(c))}')
    show('7 second: functions whose arms name two functions of the repository or more', rows)

def p8(fns, tys, texts):
    own, n = {p.split('/')[1] for p in glob.glob('crates/*/src')}, defaultdict(lambda: [0] * 6)
    for f in fns: n[f.crate][0] += 1
    lemmas = []
    for p in sorted(glob.glob('crates/*/proofs/**/*.antt', recursive=True)):
        c, b, s = p.split('/')[1], p.rsplit('/', 1)[1], open(p).read()
        if b == 'Answers.antt': n[c][1] += 1; n[c][2] += len(re.findall(r'(?m)^pub .* : goal\.', s)); continue
        if b == 'Invariants.antt': n[c][3] += 1; n[c][4] += len(re.findall(r'(?m) : goal\.', s)); continue
        if b == 'Lib.antt': continue
        s = re.sub(r'--[^\n]*', lambda m: ' ' * len(m.group()), s); L = s.split('\n'); mod = ''
        names = {x.split(' as ')[-1].strip() for m in re.finditer(r'(?m)^use Rattle\.(\w+)[\w.\-]*\.\{([^}]*)\}', s) if m.group(1) in own for x in m.group(2).split(',')}
        here = []
        for i, l in enumerate(L):
            if re.match(r'module\b', l): mod = l
            elif l and not l[0].isspace(): mod = ''
            m = re.match(r'^(  )?(?:abbrev |pub |opaque )*([^\s:(){}=]+) : (.+)$', l)
            if m and (not m.group(1) or mod):
                t, j, d = m.group(3), i + 1, len(m.group(1) or '')
                while j < len(L) and re.match(r' {%d,}\S' % (d + 2), L[j]) and not L[j].strip().startswith('unfolding'): t += ' ' + L[j].strip(); j += 1
                here.append((p, i + 1, m.group(2), flat(t), mod)); n[c][5] += 1
        local = {h[2] for h in here} | set(re.findall(r"(?:data|record) ([\w']+)", s))
        for p, i, x, t, mod in here:
            full = mod + ' ' + t; bound = {v for m in re.finditer(r"[({]([\w'₀-₉ ]+?) : ", full) for v in m.group(1).split()}
            ids = set(re.findall(r"[A-Za-z_][\w'\-₀-₉]*", full)) - bound
            k = t
            for q, v in enumerate(dict.fromkeys(v for m in re.finditer(r"[({]([\w'₀-₉ ]+?) : ", t) for v in m.group(1).split())): k = re.sub(r"(?<![\w'])" + re.escape(v) + r"(?![\w'₀-₉])", f'v{q}', k)
            lemmas.append((p, i, x, t, not (ids & names or ids & local or '.' in re.sub(r'λ[^.]*\.', '', full)), k.translate(str.maketrans('{}', '()')), mod))
    rows = [f'{c}: {v[0]} functions, {v[1]} Answers.antt with {v[2]} answers, {v[3]} Invariants.antt with {v[4]} terms, {v[5]} declarations in lemma files' for c, v in sorted(n.items())]
    show(f'8a proof files, crate by crate (functions {sum(v[0] for v in n.values())}, Answers.antt {sum(v[1] for v in n.values())}, answers {sum(v[2] for v in n.values())}, Invariants.antt {sum(v[3] for v in n.values())}, terms {sum(v[4] for v in n.values())}, declarations {sum(v[5] for v in n.values())})', rows)
    show('8b declarations in lemma files whose statement names nothing of the repository', [f'{p[7:]}:{i} {x} : {t}' for p, i, x, t, g, k, mod in lemmas if g and ('≡' in t or '≤' in t or '<' in t or '→ P' in t)])
    d = defaultdict(list)
    for p, i, x, t, g, k, mod in lemmas:
        if not mod and len(k) > 25 and '→' in k: d[k].append((p, f'{p[7:]}:{i} {x}'))
    show('8c statements that stand in two files, the names of variables apart', [' = '.join(x for _, x in v) for v in d.values() if len({p for p, _ in v}) > 1])

if __name__ == '__main__':
    all8 = {'p1': p1, 'p2': p2, 'p3': p3, 'p4': p4, 'p5': p5, 'p6': p6, 'p7': p7, 'p8': p8}
    if sys.argv[1] == 'sum':
        def show(title, rows): print(f'{title}: {len(rows)}')
    for k, p in all8.items():
        if sys.argv[1] in (k, 'sum'): p(*load())
