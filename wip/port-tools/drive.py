#!/usr/bin/env python3
"""drive.py ROOT CRATE: stage inv check -> open goals -> answers for them -> check; print what is left"""
import sys,subprocess,re,json,os
root,crate=sys.argv[1],sys.argv[2]
d=os.path.join(root,'crates',crate)
def check(*a):
    r=subprocess.run(['rt','check','--jobs','2',*a],cwd=d,stdout=subprocess.PIPE,stderr=subprocess.STDOUT,text=True)
    return r.stdout
def proved(t):
    l=re.findall(r'^logic=(\S+)',t,re.M)
    return bool(l) and l[-1]=='proved' and not re.search(r'^fn .*(no proof|not proved)',t,re.M)
def opens(t):
    o={}
    for m in re.finditer(r"^fn ([\w:<>]+): no proof.*?did not prove ([^\n;]*)",t,re.M):
        o.setdefault(m[1],[]).extend(re.findall(r'`([^`]+)`',m[2]))
    return o
subprocess.run(['python3','/tmp/conv.py',root,crate,'inv'])
t=check(); open(f'/tmp/log-{crate}-1.txt','w').write(t)
if proved(t): print(crate,'PROVED with invariants alone'); sys.exit()
o=opens(t); json.dump(o,open(f'/tmp/open-{crate}.json','w'))
subprocess.run(['python3','/tmp/conv.py',root,crate,'open',f'/tmp/open-{crate}.json'])
t=check(); open(f'/tmp/log-{crate}-2.txt','w').write(t)
if proved(t): print(crate,'PROVED with answers for',sum(map(len,o.values()))); sys.exit()
print(crate,'open at first',sum(map(len,o.values())))
for l in t.split('\n'):
    if re.match(r'\./proofs.*error',l) or re.match(r'src.*error',l) or (l.startswith('fn ') and ': proved' not in l): print('  ',l[:300])
