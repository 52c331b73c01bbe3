#!/usr/bin/env python3
"""Old and new side by side, for docs/DESIGN-PASS.md: each function whose signature or clause changed since a commit, and each declaration of specs/.

    tools/sides.py COMMIT > part.md

Declarations that differ by a respelling alone (RESPELLED) are named, and not shown.
"""
import collections
import re
import subprocess
import sys
import textwrap

sys.argv, args = [sys.argv[0], '999'], sys.argv[1:]
import importlib.util, pathlib, io, contextlib
spec = importlib.util.spec_from_file_location('forms', pathlib.Path(__file__).with_name('forms.py'))
forms = importlib.util.module_from_spec(spec)
with contextlib.redirect_stdout(io.StringIO()):
    spec.loader.exec_module(forms)

RESPELLED = [(r'\bLimit\.(At|Nothing)\b', r'\1'), (r'\bNothing\b', 'None'), (r'\bAt\b', 'Some'), (r'\bnone\b', 'None'), (r'\bsome\b', 'Some'),
             (r'\bRatioFile\b', 'FileRead'), (r'\bis_there\b', 'is_some'), (r'\bor_else\b', 'unwrap_or')]


def text(rev, name):
    return subprocess.run(['git', 'show', f'{rev}:{name}'], capture_output=True, text=True).stdout if rev else open(name).read()


def names(rev):
    cmd = ['git', 'ls-tree', '-r', '--name-only', rev, 'crates'] if rev else ['git', 'ls-files', 'crates']
    return subprocess.run(cmd, capture_output=True, text=True).stdout.split()


def crate(name):
    return name.split('/')[1]


def one(s):
    return re.sub(r'\s+', ' ', s).strip()


def code(rev):
    out = collections.OrderedDict()
    for n in names(rev):
        if n.endswith('.rt'):
            seen = collections.Counter()
            for f, sig, clauses, body in forms.functions(text(rev, n)):
                seen[f] += 1
                key = (crate(n), f, seen[f])
                sig = one(re.sub(r'\b(requires|ensures)\b.*', '', sig, flags=re.S))
                out[key] = [sig.replace(', )', ')').replace('( ', '(')] + [one(c) for c in clauses]
    return out


STARTS = re.compile(r'\s{0,4}(?:abbrev |unfoldable )?(?:pub )?(?:record |data )?([^\s:({=]+)(?: [({].*?)? : ')


def definitions(rev):
    out = collections.OrderedDict()
    for n in names(rev):
        if n.endswith('.antt') and '/specs/' in n and not n.endswith('/Lib.antt'):
            key = None
            for l in text(rev, n).split('\n'):
                if re.match(r'\s*--|use |open |\s*module |\s*$', l):
                    key = None if re.match(r'\s*$|\s*module ', l) else key
                    continue
                m = STARTS.match(l)
                if m and not l.startswith('    ') and not (key and re.match(r'\s*pub ', l) and 'record' in out[key].split(':')[0]):
                    key = (crate(n), m.group(1))
                    while key in out:
                        key = (key[0], key[1] + "'")
                    out[key] = ''
                if key:
                    out[key] = one(out[key] + ' ' + l)
    return out


def respelled(s):
    for a, b in RESPELLED:
        s = re.sub(a, b, s)
    return one(s)


def show(sign, s):
    return '\n'.join(textwrap.wrap(s, 154, initial_indent=sign + ' ', subsequent_indent=sign + '   ', break_long_words=False, break_on_hyphens=False))


def main():
    rev = args[0]
    old, new = code(rev), code(None)
    print('### Functions: signatures and clauses\n\n```text')
    for k in new:
        if k in old and old[k] != new[k]:
            print(f'{k[0]}::{k[1]}')
            print('\n'.join(show('-', s) for s in old[k] if s not in new[k]))
            print('\n'.join(show('+', s) for s in new[k] if s not in old[k]))
    print('```\n\n### Functions that are new\n\n```text')
    for k in new:
        if k not in old:
            print(f'{k[0]}::{k[1]}')
            print('\n'.join(show('+', s) for s in new[k]))
    print('```\n\n### Functions that are gone\n\n```text')
    for k in old:
        if k not in new:
            print(f'{k[0]}::{k[1]}')
            print('\n'.join(show('-', s) for s in old[k]))
    old, new = definitions(rev), definitions(None)
    same = [k for k in new if k in old and old[k] != new[k] and respelled(old[k]) == respelled(new[k])]
    print('```\n\n### Declarations of specs/ respelled\n')
    by = collections.defaultdict(list)
    for c, d in same:
        by[c].append(f'`{d}`')
    for c in by:
        print('\n'.join(textwrap.wrap(f'- {c}: ' + ', '.join(by[c]), 158, subsequent_indent='  ', break_long_words=False, break_on_hyphens=False)))
    print('\n### Declarations of specs/ that changed\n\n```text')
    for k in new:
        if k in old and old[k] != new[k] and k not in same:
            print(f'{k[0]} {k[1]}')
            print(show('-', old[k]))
            print(show('+', new[k]))
    print('```\n\n### Declarations of specs/ that are new\n\n```text')
    for k in new:
        if k not in old:
            print(f'{k[0]} {k[1]}')
            print(show('+', new[k]))
    print('```\n\n### Declarations of specs/ that are gone\n\n```text')
    for k in old:
        if k not in new:
            print(f'{k[0]} {k[1]}')
            print(show('-', old[k]))
    print('```')


main()
