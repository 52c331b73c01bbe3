import re,subprocess,collections
DEC=re.compile(r"^\s*(?:(?:abbrev|unfoldable|pub)\s+)*([A-Za-z_][^\s:(){}]*)\s*:(?!:)")
SH=re.compile(r"^\s*(?:pub\s+)?(?:record|data)\s+([A-Za-z_][^\s:(){}]*)")
def names(t):
    r=[]
    for l in t.split('\n'):
        m=DEC.match(l) or SH.match(l)
        if m: r.append(m[1])
    return r
def show(c,p):
    r=subprocess.run(['git','show',f'{c}:{p}'],capture_output=True,text=True)
    return r.stdout if r.returncode==0 else None
files=[l for l in subprocess.run(['git','ls-tree','-r','--name-only','abfbc8a','crates'],capture_output=True,text=True).stdout.split('\n') if l.endswith('.antt') and not l.endswith('Proof.antt')]
mp=collections.defaultdict(collections.Counter)
bad=[]
for f in files:
    a,b=show('a1322f7',f),show('abfbc8a',f)
    if a is None: bad.append((f,'none'));continue
    x,y=names(a),names(b)
    if len(x)!=len(y): bad.append((f,len(x),len(y))); continue
    for o,n in zip(x,y): mp[o][n]+=1
out={}
for o,c in mp.items():
    n=c.most_common(1)[0][0]
    if len(c)>1: print('two',o,dict(c))
    if n!=o: out[o]=n
print(bad)
open('/tmp/landed_names.txt','w').write(''.join(f'{o} {n}\n' for o,n in sorted(out.items())))
print(len(out))
