#!/usr/bin/env python3
"""conv.py ROOT CRATE [stage]: converts proofs/**/Proof.antt of CRATE (read from git HEAD's tree in ROOT/crates) into Invariants.antt and Answers.antt.
stage 'inv': only invariants; stage 'open FILE': answers only for goals listed open in FILE (json {fn path: [goals]}); 'all': all."""
import sys,os,re,json,subprocess
root,crate=sys.argv[1],sys.argv[2]
stage=sys.argv[3] if len(sys.argv)>3 else 'inv'
opened=json.load(open(sys.argv[4])) if stage=='open' else None
base=os.path.join(root,'crates',crate)
names=json.load(open(f'/tmp/names/crates/{crate}/names.json')) if os.path.exists(f'/tmp/names/crates/{crate}/names.json') else {}
norm=lambda s: s.replace('_','-')
def entry(fn):
    key=f'Rattle-{crate}-proofs.'+fn.replace('/','.')+'.Lts'
    return names.get(key)
def decls(text):
    """split into use lines, comments, and top-level decl blocks"""
    lines=text.split('\n'); head=[]; uses=[]; blocks=[]; cur=None; pend=[]
    i=0
    while i<len(lines):
        l=lines[i]
        if l.startswith('use '):
            uses.append(l)
        elif l.startswith('--'):
            (head if not uses and not blocks and cur is None else pend).append(l)
            if cur is not None: cur=None
        elif l.strip()=='' :
            if cur is not None: cur['lines'].append('')
        elif l[0] in ' \t':
            cur['lines'].append(l)
        else:
            m=re.match(r"(?:(?:abbrev|unfoldable|pub|private) )*([\w'\-ℕ₀-₉]+)\s*:",l)
            if m and not (cur is not None and cur['name']==m[1]):
                cur={'name':m[1],'lines':[l],'com':pend}; pend=[]; blocks.append(cur)
            elif re.match(r'module |data |record |pub record |pub data ',l):
                cur={'name':None,'lines':[l],'com':pend}; pend=[]; blocks.append(cur)
            elif cur is None:
                # clause after comment
                if blocks: cur=blocks[-1]; cur['lines'].append(l)
                else: head.append(l)
            else:
                cur['lines'].append(l)
        i+=1
    for b in blocks:
        while b['lines'] and b['lines'][-1]=='': b['lines'].pop()
    return head,uses,blocks
def chain(text,e,goal,place=None):
    text=re.sub(r'\.«(\w+)»\.',r'.\1.',text)
    steps={}
    if e:
        for p in e['places']:
            o,n=p[2]
            if o: steps.setdefault(norm(o),(n,p[3]))
        for lo in e['loops']:
            steps.setdefault(norm(lo[0][0]),(lo[0][1],None))
    # aliases
    alias={'c'}
    changed=True
    while changed:
        changed=False
        for m in re.finditer(r"let (\w+) = (\w+)((?:\.before)*) in\s*",text):
            if m[2] in alias:
                alias.add(m[1]); text=text[:m.start()]+text[m.end():]; changed=True; break
    al='|'.join(sorted(alias,key=len,reverse=True))
    armsteps={a[0] for a in (e or {}).get('arms',[]) if a}
    if e and place:
        par={p[0]:p[1] for p in e['places']}
        idx={p[0]:i for i,p in enumerate(e['places'])}
        maps=[]
        q=place
        while q:
            if q in idx and idx[q]<len(e['arms']) and e['arms'][idx[q]]:
                a=e['arms'][idx[q]]
                for nf,os_,of in a[2]:
                    if of: maps.append((os_,of,f'c.{a[0]}.{nf}'))
            q=par.get(q)
        for os_,of,new in sorted(maps,key=lambda z:-len(z[1])):
            rx=r"(?<![\w.'])(?:"+al+r")(?:\.before)*\."+re.escape(os_).replace('_','[_-]')+''.join(r'\.'+re.escape(x) for x in of)+r"(?![\w\-'])"
            text=re.sub(rx,new,text)
    def ref(m):
        rest=m[2]
        st=m[3]
        if st in ('args','requires','ranges','lifetimes','measure','utf8'): return 'c.'+st
        k=norm(st)
        if st in armsteps: return m[0]
        if k not in steps and k.startswith('Is') and k[2:3].isupper() and (k[2].lower()+k[3:]) in steps: k=k[2].lower()+k[3:]
        mf=re.fullmatch(r'fits(\d+)',k)
        if mf and 'fits' in steps: k='fits'+('' if mf[1]=='2' else str(int(mf[1])-1))
        if k not in steps and re.sub(r'\d+$','',k) in steps: k=re.sub(r'\d+$','',k)
        if k not in steps and k[:1].isupper() and (k[0].lower()+k[1:]) in steps: k=k[0].lower()+k[1:]
        if k not in steps and k.endswith('-lem') and k[:-4] in steps: k=k[:-4]
        if k in steps:
            return 'c.'+steps[k][0]+'\0'+(steps[k][1] or '')+'\1'
        return 'c.'+st
    text=re.sub(r"(?<![\w.'])("+al+r")((?:\.before)*)\.([A-Za-z][\w\-']*)",ref,text)
    # .new.N
    def newp(m):
        f=m[1]; idx=m[2]
        ps=(e or {}).get('params',{}).get(f)
        ones=idx.count('.1')
        if ps and ones<len(ps): return '.new.'+ps[ones]
        return '.new'+idx
    text=re.sub("\0([^\1]*)\1\\.new((?:\\.1)*\\.0)",newp,text)
    text=re.sub("\0[^\1]*\1",'',text)
    text=re.sub(r"(?<![\w.'])("+al+r")\.before\b",'c',text)
    text=re.sub(r"\bc\.[\w\-]+\.rest(?:\.\d)+",'(omega arith)',text)
    text=re.sub(r"=\s*(?:simp [\w\-]+ at )?c\.well-formed(?:\.\d)+",'= search rules',text)
    text=re.sub(r"\bc\.well-formed(?:\.\d)+",'(search rules)',text)
    neg={p[2][1] for p in (e or {}).get('places',[]) if any(x[1].endswith('-raw') for x in p[4])}
    if neg:
        nx='|'.join(re.escape(x) for x in sorted(neg,key=len,reverse=True))
        text=re.sub(r"not-(?:true|false) (?:_|[\w.\-]+) (c\.(?:"+nx+r")\.(?:true|false))(?![\w\-])",r'\1\0',text)
        text=re.sub(r"(?<![\w.])(c\.(?:"+nx+r")\.(?:true|false))(?![\w\-\0])",r'(ap not \1)',text).replace('\0','')
    for a in alias-{'c'}:
        text=re.sub(r"(?<![\w.'])"+a+r"(?![\w'\-])",'c',text)
    return text
arrays={}
for d_,ds_,fs_ in os.walk(os.path.join(base,'src')):
    for f_ in fs_:
        s_=open(os.path.join(d_,f_)).read()
        for m_ in re.finditer(r"fn (\w+)\(([^{]*?)\)\s*(?:->|requires|ensures|\{)",s_):
            a_=re.findall(r"(?:mut )?(\w+): \[",m_[2])
            if a_: arrays[m_[1]]=a_
out={}
pd=os.path.join(base,'proofs')
dirs=set()
for q in (pd,'/tmp/oldproofs/'+crate):
    for d,ds,fs in os.walk(q):
        if 'Proof.antt' in fs: dirs.add(os.path.relpath(d,q))
only=os.environ.get('ONLY')
for fn in sorted(dirs):
    if only and fn not in only.split(): continue
    d=os.path.join(pd,fn)
    os.makedirs(d,exist_ok=True)
    old='/tmp/oldproofs/'+crate+'/'+fn+'/Proof.antt'
    p=os.path.join(d,'Proof.antt')
    if os.path.exists(p):
        os.makedirs(os.path.dirname(old),exist_ok=True)
        os.replace(p,old)
    text=open(old).read()
    e=entry(fn)
    if 'tie.spec' not in text and 'tie.close' not in text:
        print('HAND',crate,fn); 
        os.makedirs(d,exist_ok=True); open(p,'w').write(text); continue
    if e is None: print('NO NAMES',crate,fn)
    head,uses,blocks=decls(text)
    uses=[u for u in uses if not re.search(r'\.(Statement\.\{|Tie as |Reads as |Lts as )',u)]
    needs={}
    order=[]
    if e:
        for o,n in e['needs']: needs.setdefault(norm(o),n); order.append((norm(o),n))
    ans=[];inv=[];local=[];oldneeds=[]
    for b in blocks:
        first=b['lines'][0]
        t='\n'.join(b['lines'])
        m=re.search(r':\s*tie\.Need-([\w\-]+)',t)
        if m: oldneeds.append((b,m[1])); continue
        m=re.search(r':\s*tie\.(invariant-[\w\-]+|decreases-[\w\-]+)',first)
        if m: inv.append((b,m[1])); continue
        if 'tie.close' in t or re.search(r'\bstatement M\b',t): continue
        local.append(b)
    spec=[norm(x) for x in re.findall(r"[\w\-']+",(re.search(r'\(tie\.spec([\s\S]*?)\)\s*$',text.strip()) or [0,''])[1])]
    unm=[]
    by_order = e and len(order)==len(oldneeds)
    for i,(b,y) in enumerate(oldneeds):
        k=norm(y)
        k2=re.sub(r'^overflow-','',k)
        if by_order: new=order[i][1] if True else None
        else: new=needs.get(k) or needs.get(k2)
        if by_order and needs.get(k,needs.get(k2)) not in (None,new): pass
        if not new: unm.append(y); new='?'+y
        pl=None
        if e:
            for (o_,n_),(po,pn) in zip(order,e['asked_at']):
                if n_==new: pl=po
        ans.append((b,new,pl))
    if unm: print('UNMATCHED',crate,fn,unm, 'have', [n for o,n in order])
    # invariants
    invtext=[]
    for b,y in inv:
        if not e: continue
        kind,_,lname=y.partition('-')
        lo=[(i,x) for i,x in enumerate(e['loops']) if norm(x[0][0])==norm(lname)]
        t='\n'.join(b['lines'])
        if not lo:
            print('LOOP?',crate,fn,y); continue
        i,x=lo[0]; vs=x[1]; ch=e['changed'][i]
        m=re.search(r"^"+re.escape(y)+r"((?: [^\s=]+)*) =([\s\S]*)$",t,re.M)
        if not m: print('INV?',crate,fn,t); continue
        ps=[x.strip('«»') for x in m[1].split()]; body=re.sub(r'(?<!\.)«(\w+)»',r'\1',m[2])
        cur=[v for v,c in zip(vs,ch) if c]
        mp={}
        if len(ps)!=len(vs)+len(cur): print('PARAMS',crate,fn,ps,vs,ch)
        for q,v,c in zip(ps,vs,ch): mp[q]=('l.initial.' if c else 'l.')+v
        for q,v in zip(ps[len(vs):],cur): mp[q]='l.'+v
        mp.pop('_',None)
        body=re.sub(r"(?<![\w.'₀-₉])([A-Za-z_][\w'₀-₉]*)(?![\w'\-₀-₉])",lambda mm: mp.get(mm[1],mm[1]),body)
        body=re.sub(r"(l\.(?:initial\.)?\w+)\.now\b",r"\1",body)
        nm=kind+'-'+x[0][1]
        invtext.append(f"abbrev pub {nm} : goal.{nm}\n{nm} l ={body}\n")
    if invtext:
        iu=[u for u in uses]
        open(os.path.join(d,'Invariants.antt'),'w').write('\n'.join(head+iu+[f"use Rattle.{crate}.proofs.{fn.replace('/','.')}.Given as goal",'']+invtext))
    elif os.path.exists(os.path.join(d,'Invariants.antt')): os.remove(os.path.join(d,'Invariants.antt'))
    outs=[]
    for b in local:
        outs.append('\n'.join(b['com']+b['lines'])+'\n')
    any_=False
    okey=f'{crate}::'+fn.replace('/','::')
    for b,new,pl in ans:
        t='\n'.join(b['lines'])
        name=b['name']
        m=re.match(r"[\s\S]*?\n((?:unfolding [^\n]*\n)?)"+re.escape(name)+r"((?: [^\s=]+)*) =([\s\S]*)$",t)
        if not m: print('ANS?',crate,fn,t[:200]); continue
        body=m[3].strip(' ')
        if stage=='open':
            if new not in opened.get(okey,[]): continue
        elif re.fullmatch(r'\s*search rules\s*',body): continue
        body=chain(body,e,new,pl).replace('.own_val','.own')
        any_=True
        outs.append(f"pub {new} : goal.{new}\n{m[1]}{new} c ={' ' if not body.startswith(chr(10)) else ''}{body}\n")
    ap=os.path.join(d,'Answers.antt')
    if any_ and stage!='inv':
        if re.search(r'\barith\b','\n'.join(outs)) and not re.search(r'\barith\b','\n'.join(uses)): uses=uses+['use Rattle.std.proofs.Common.{arith}']
        o_='\n'.join(outs); u_='\n'.join(uses)
        if '(ap not ' in o_:
            if not re.search(r'[{ ]ap[,}]',u_): uses=uses+['use Rattle.std.proofs.Common.{ap}']
            if not re.search(r'[{ ]not[,}]',u_): uses=uses+['use mathlib.Core.Bool.{not}']
        arr=arrays.get(fn.split('/')[-1])
        if arr: outs=[re.sub(r'c\.args\.t\d+',lambda m:'c.args.'+arr[0],x) for x in outs]
        open(ap,'w').write('\n'.join(head+uses+[f"use Rattle.{crate}.proofs.{fn.replace('/','.')}.Goals as goal",'']+outs))
    elif os.path.exists(ap): os.remove(ap)
    if not os.listdir(d): os.rmdir(d)
