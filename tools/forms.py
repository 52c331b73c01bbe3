#!/usr/bin/env python3
"""Places in src/ that today's Rattle has a better form for, point by point (docs/DESIGN-PASS.md).

    tools/forms.py [REV] [POINT ..]     counts at a revision (default: the work tree), and lists each place of the points named
"""
import collections, re, subprocess, sys


def files(rev):
    if rev is None:
        names = subprocess.run(['git', 'ls-files', 'crates'], capture_output=True, text=True).stdout.split()
        return {n: open(n).read() for n in names if wanted(n)}
    names = subprocess.run(['git', 'ls-tree', '-r', '--name-only', rev, 'crates'], capture_output=True, text=True).stdout.split()
    return {n: subprocess.run(['git', 'show', f'{rev}:{n}'], capture_output=True, text=True).stdout for n in names if wanted(n)}


def wanted(name):
    return name.endswith('.rt') or (name.endswith('.antt') and '/proofs/' in name)


def bare(text):
    return re.sub(r'//[^\n]*', '', text)


def functions(text):
    """(name, signature, contract, body) of each function."""
    t = bare(text)
    for m in re.finditer(r'\bfn (\w+)', t):
        i, depth, cut = m.end(), 0, None
        clauses = []
        while i < len(t):
            c = t[i]
            if c in '([<' and not t.startswith('<-', i):
                depth += 1 if c != '<' else 0
            elif c in ')]':
                depth -= 1
            elif c == ';' and depth == 0:
                break
            elif c == '{' and depth == 0:
                j = closing(t, i)
                before = t[m.end():i].rstrip()
                if re.search(r'\b(requires|ensures)( \w+)?$', before) or clauses and re.search(r'\b(requires|ensures)( \w+)?\s*$', t[clauses[-1][1]:i]):
                    clauses.append((i, j))
                    cut = cut or m.end() + len(re.sub(r'\s*(requires|ensures)( \w+)?$', '', before))
                    i = j
                    continue
                sig = t[m.start():cut or i]
                yield m.group(1), sig, [t[a - 40:a].split()[-2 if False else -1] + ' ' + t[a + 1:b - 1].strip() for a, b in clauses], t[i + 1:j - 1]
                break
            i += 1


def closing(t, i):
    depth = 0
    while i < len(t):
        depth += (t[i] == '{') - (t[i] == '}')
        i += 1
        if depth == 0:
            return i
    return i


def structs(text):
    for m in re.finditer(r'\b(struct|enum) (\w+)(<[^>]*>)?\s*\{', bare(text)):
        t = bare(text)
        yield m.group(1), m.group(2), t[m.end():closing(t, m.end() - 1) - 1]


REFUSED = re.compile(r'-> (u64|Answer)\s*$')


def point1(src):
    for n, t in src:
        for kind, name, inner in structs(t):
            if kind == 'enum':
                v = [x.strip() for x in re.sub(r'[({][^(){}]*[)}]', '!', inner).split(',') if x.strip()]
                if sum(x.endswith('!') for x in v) == 1 and len(v) > 1:
                    yield f'{n}: enum {name}'
            else:
                fields = re.findall(r'(?:pub )?(\w+): ([\w<>\[\]; &\']+)', inner)
                flags = [f for f in fields if f[1] == 'bool' or f[0] == 'refusal' and f[1] == 'u64']
                if flags and len(flags) < len(fields):
                    yield f'{n}: struct {name}'
        for name, sig, clauses, body in functions(t):
            if REFUSED.search(sig.strip()) and any(re.search(r'refus|answer|listed|step', c) for c in clauses):
                yield f'{n}: fn {name}'
        if re.search(r'pub const UNSOUND: u64', t):
            yield f'{n}: the refusals as constants'


def point2(src):
    seen = collections.defaultdict(list)
    for n, t in src:
        for name, sig, clauses, body in functions(t):
            words = re.findall(r'\w+|[^\w\s]', body)
            if len(words) < 14:
                continue
            place, out = {}, []
            for w in words:
                if re.match(r'\w', w) and w not in ('let', 'if', 'else', 'return', 'match', 'while', 'for', 'mut', 'in'):
                    w = place.setdefault(w, f'#{len(place)}')
                out.append(w)
            seen[' '.join(out)].append(f'{n}: fn {name}')
        for kind, name, inner in structs(t):
            fields = re.findall(r'(\w+): ', inner)
            if kind == 'struct' and len(fields) > 1:
                seen['struct ' + ' '.join(fields)].append(f'{n}: struct {name}')
    for group in seen.values():
        for one in group[1:] if len(group) > 1 else []:
            yield f'{one}, as {group[0]}'


def point3(src):
    for n, t in src:
        for name, sig, clauses, body in functions(t):
            for _ in re.findall(r'\bwhile\b(?! let)', body):
                yield f'{n}: fn {name}'


def point4(src):
    for n, t in src:
        for name, sig, clauses, body in functions(t):
            if re.search(r'if (\w+) < (\w+) \{\s*\1\s*\} else \{\s*\2\s*\}', body):
                yield f'{n}: fn {name}: min'
            if re.search(r'if a \{\s*b\s*\} else \{\s*!b\s*\}', body):
                yield f'{n}: fn {name}: =='
            for f, g in re.findall(r'\((\w+\.\w+) == (\w+\.\w+)\) &', body):
                yield f'{n}: fn {name}: equality of records'
            for _ in re.findall(r'\bas u64\b|\bas u32\b|\bas u16\b', body):
                yield f'{n}: fn {name}: a cast that From or TryFrom says'
            for a, b in re.findall(r'\b(\w+): (\w+),', body):
                if a == b:
                    yield f'{n}: fn {name}: {a}: {b}'
            if len(re.findall(r'\b\w+: (?:0|false|None|Mils\(0\)),', body)) >= 3:
                yield f'{n}: fn {name}: a zero value'
            if re.fullmatch(r'\s*(match \w+ \{\s*(None|\w+::Nothing) => true,\s*\S+ => false,?\s*\})\s*', body):
                yield f'{n}: fn {name}: is_none'


def point5(src):
    facts, takes = collections.defaultdict(set), {}
    for n, t in src:
        for name, sig, clauses, body in functions(t):
            here = f'{n}: fn {name}'
            for c in clauses:
                if c.startswith('requires'):
                    for f in re.split(r'\)? ?× ?\(?', c[8:]):
                        f = f.strip(' ()')
                        if f:
                            facts[f].add(here)
            takes[here] = frozenset(n for n in re.findall(r'(\w+): ', sig) if not n.isupper())
    # the sets of two or more parameters of which each is mostly (in two functions of three or more) with the others, and that no larger set takes in as many
    sets = {a & b for a in takes.values() for b in takes.values() if len(a & b) > 1}
    of = lambda s: sum(1 for t in takes.values() if s <= t)
    sets = {s for s in sets if all(3 * of(s) >= 2 * of({p}) for p in s)}
    for f, where in sorted(facts.items()):
        if len(where) >= 3:
            yield f'the fact `{f}` in {len(where)}: ' + ', '.join(sorted(w.split(': fn ')[1] for w in where))
    for group in sorted(sets, key=sorted):
        where = [w for w, t in takes.items() if group <= t]
        if len(where) >= 3:
            yield f'({", ".join(sorted(group))}) in {len(where)}: ' + ', '.join(sorted(w.split(': fn ')[1] for w in where))


def point6(src):
    for n, t in src:
        for kind, name, inner in structs(t):
            if len(re.findall(r': \[', inner)) >= 1:
                yield f'{n}: struct {name}: arrays, with a count beside them'
        for name, sig, clauses, body in functions(t):
            if re.search(r': &(mut )?\[\w+(; \w+)?\], (n|filled|most|used|written): usize', sig):
                yield f'{n}: fn {name}: a buffer and a length'


def point7(src):
    for n, t in src:
        for name, sig, clauses, body in functions(t):
            if re.search(r'match \w+ \{', body) and len(re.findall(r'=> \w+(::\w+)?\(', body)) >= 6:
                yield f'{n}: fn {name}: a switch of calls'
            if re.search(r'\bfn\(|\bdyn\b', sig):
                yield f'{n}: fn {name}'


def point8(proofs):
    for n, t in proofs:
        for g in re.findall(r'^pub ([\w-]+) : goal\.', t, re.M):
            yield f'{n}: {g}'


def main():
    args = sys.argv[1:]
    rev = args.pop(0) if args and not args[0].isdigit() else None
    everything = files(rev)
    src = [(n, t) for n, t in sorted(everything.items()) if n.endswith('.rt')]
    proofs = [(n, t) for n, t in sorted(everything.items()) if n.endswith('.antt') and re.search(r'/(Answers|Proof)\.antt$', n)]
    for k, f in enumerate([point1, point2, point3, point4, point5, point6, point7, point8], 1):
        places = list(f(proofs if k == 8 else src))
        print(f'point {k}: {len(places)}')
        if str(k) in args:
            print('\n'.join('  ' + p for p in places))


main()
