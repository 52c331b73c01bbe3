#!/usr/bin/env python3
"""A copy of the crates with every function, proof and must-fail edit left out: types, constants and specs/ alone. All of it checks in a minute and a half.

usage: tools/strip.py SRC DST      then: cd DST && git init -q && rt all check
"""
import os,re,shutil,sys
src,dst=sys.argv[1],sys.argv[2]
def strip(text):
    lines=text.split('\n'); out=[]; i=0
    while i<len(lines):
        l=lines[i]
        if re.match(r'\s*(pub(\(crate\))?\s+)?(unsafe )?(extern "C" )?fn ',l):
            while out and re.match(r'\s*(//|#\[)',out[-1]): out.pop()
            ind=re.match(r'\s*',l).group(0)
            while not (lines[i].startswith(ind+'}') and len(lines[i])==len(ind)+1): i+=1
            i+=1; continue
        out.append(l); i+=1
    return '\n'.join(out)
os.makedirs(dst+'/crates',exist_ok=True)
deps={}
for l in open(src+'/crates.txt'):
    l=l.split('#')[0].strip()
    if l:
        n,_,d=l.partition(':'); deps[n.split()[0]]=[x for x in d.split() if x not in('os','io','libc')]
for c in deps:
    d=dst+'/crates/'+c
    if os.path.exists(d+'/src'): shutil.rmtree(d+'/src')
    if os.path.exists(d+'/specs'): shutil.rmtree(d+'/specs')
    if not os.path.exists(src+'/crates/'+c+'/specs') or os.path.exists(src+'/crates/'+c+'/src/main.rt'):
        continue
    os.makedirs(d,exist_ok=True)
    shutil.copytree(src+'/crates/'+c+'/specs',d+'/specs')
    os.makedirs(d+'/src')
    for f in sorted(os.listdir(src+'/crates/'+c+'/src')):
        t=strip(open(src+'/crates/'+c+'/src/'+f).read())
        t=re.sub(r'(?m)^ghost use [^;]*;\n','',t)
        body=re.sub(r'(?m)^use [^;]*;','',t)
        body='\n'.join(l.split('//')[0] for l in body.split('\n'))
        def u(m):
            x=m.group(0)
            g=re.match(r'(pub )?use (.*)::\{([^}]*)\};',x,re.S)
            if g:
                keep=[y.strip() for y in g[3].split(',') if y.strip() and re.search(r'\b'+y.strip().split()[-1]+r'\b',body)]
                return f"use {g[2]}::{{{', '.join(keep)}}};" if len(keep)>1 else (f"use {g[2]}::{keep[0]};" if keep else '')
            n=re.match(r'(?:pub )?use .*::(\w+);',x)
            return x if n and re.search(r'\b'+n[1]+r'\b',body) else ''
        t=re.sub(r'(?m)^(pub )?use [^;]*;',u,t)
        # empty impls
        t=re.sub(r'(?m)^impl [^{]*\{\s*\}\n','',t)
        open(d+'/src/'+f,'w').write(t)
have=[c for c in deps if os.path.exists(dst+'/crates/'+c)]
open(dst+'/crates.txt','w').write(''.join(c+': '+' '.join(x for x in deps[c] if x in have)+'\n' for c in have))
