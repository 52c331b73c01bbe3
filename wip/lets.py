#!/usr/bin/env python3
"""lets FILE...: in proof files, chains of `.before` become names: let c3 = c .before .before .before in .."""
import re,sys
def tidy(text):
    parts=re.split(r'(?m)^(?=\S)',text)
    out=[]
    for p in parts:
        m=re.match(r'(?s)^(\S+)( c)( κs)? =(.*)$',p)
        if not m or ' .before' not in p or 'let c' in p:
            out.append(p); continue
        name,c,k,body=m.group(1),m.group(2),m.group(3) or '',m.group(4)
        chain=re.compile(r'\bc((?: \.before)+)')
        depths=set()
        for x in chain.finditer(body): depths.add(x.group(1).count('.before'))
        if max(depths)<2 and len(depths)<2: out.append(p); continue
        # args chain
        am=re.search(r'\bc((?: \.before)+) \.args\b',body)
        ad=am.group(1).count('.before') if am else None
        body2=body
        alet=''
        if ad is not None:
            if re.search(r'let a = c(?: \.before)+ \.args in',body2):
                body2=re.sub(r'\n? *let a = c(?: \.before)+ \.args in','',body2,1)
                alet='a'
            elif len(re.findall(r'\bc(?: \.before)+ \.args\b',body2))>=1:
                body2=re.sub(r'\bc(?: \.before)+ \.args\b','a',body2)
                alet='a'
        used=set(x.group(1).count('.before') for x in chain.finditer(body2))
        body2=chain.sub(lambda x:'c%d'%x.group(1).count('.before'),body2)
        lets=[];prev=('c',0)
        for d in sorted(used):
            lets.append('    let c%d = %s%s in'%(d,prev[0],' .before'*(d-prev[1]))); prev=('c%d'%d,d)
        if alet:
            base=max([d for d in used if d<=ad],default=0)
            b='c%d'%base if base else 'c'
            lets.append('    let a = %s%s .args in'%(b,' .before'*(ad-base)))
        body2=body2.rstrip('\n')
        tail=p[len(p.rstrip('\n')):]
        b=body2.strip(' ')
        if b.startswith('\n'): b=b[1:]
        else: b='    '+b
        b=re.sub(r'rw \((?=[^()]*\.ensures, )',r'rw (\n      ',b)
        out.append(f'{name}{c}{k} =\n'+'\n'.join(lets)+'\n'+b+tail)
    return ''.join(out)
for f in sys.argv[1:]:
    s=open(f).read(); t=tidy(s)
    if s!=t: open(f,'w').write(t); print('tidied',f)
