#!/usr/bin/env python3
import os,re,subprocess,sys,time,threading,queue
root=sys.argv[1]; par=int(sys.argv[2])
os.makedirs('/tmp/status',exist_ok=True)
deps={}
for l in open(root+'/crates.txt'):
    l=l.split('#')[0].strip()
    if l:
        n,_,d=l.partition(':'); deps[n.split()[0]]=d.split()
skip={'gateday','readlisting','router','router_c'}
state={}
for c in deps:
    if os.path.exists(f'/tmp/status/{c}.ok'): state[c]='ok'
lock=threading.Lock(); run=set(); trees=list(range(par))
def sh(*a): subprocess.run(a,check=False)
height={}
def h(c):
    if c not in height: height[c]=1+max([h(x) for x in deps if c in deps[x]],default=0)
    return height[c]
def work(c,t,mode):
    wk=f'/tmp/wk{t}'
    os.makedirs(wk,exist_ok=True)
    if not os.path.exists(wk+'/.git'): sh('git','init','-q',wk)
    sh('rsync','-a','--delete','--exclude','out','--exclude','must-fail',root+'/crates/',wk+'/crates/')
    sh('cp',root+'/crates.txt',wk)
    t0=time.time()
    if mode=='drive': cmd=['python3','/tmp/drive.py',wk,c]
    else: cmd=['bash','-c',f'cd {wk}/crates/{c} && rt check --jobs 2 > /tmp/log-{c}-3.txt 2>&1; cat /tmp/log-{c}-3.txt | grep -E "^logic=|^\\./proofs.*error|^src.*error|^fn .*(not proved|no proof)" | cut -c1-400']
    out=subprocess.run(cmd,stdout=subprocess.PIPE,stderr=subprocess.STDOUT,text=True).stdout
    ok='PROVED' in out or (re.findall(r'^logic=(\S+)',out,re.M)[-1:]==['proved'] and 'no proof' not in out and 'not proved' not in out)
    if mode=='drive': sh('rsync','-a','--delete',f'{wk}/crates/{c}/proofs/',f'{root}/crates/{c}/proofs/')
    with lock:
        run.discard(c); trees.append(t)
        if os.path.exists(f'/tmp/status/{c}.bad'): os.remove(f'/tmp/status/{c}.bad')
        open(f'/tmp/status/{c}.'+('ok' if ok else 'bad'),'w').write(out)
        state[c]='ok' if ok else 'bad'
        print(time.strftime('%H:%M:%S'),c,state[c],int(time.time()-t0),out[:60].replace('\n',' ') if ok else '',flush=True)
while True:
    with lock:
        for c in sorted(deps,key=lambda x:-h(x)):
            if c in skip: continue
            if os.path.exists(f'/tmp/redo/{c}') and c not in run: os.remove(f'/tmp/redo/{c}'); state[c]=None
            if c in run or not trees: continue
            mode=None
            if state.get(c)=='bad' and os.path.exists(f'/tmp/retry/{c}'): os.remove(f'/tmp/retry/{c}'); mode='check'
            elif state.get(c) is None and all(state.get(d)=='ok' for d in deps[c]): mode='drive'
            if mode:
                run.add(c); state[c]='run'
                threading.Thread(target=work,args=(c,trees.pop(0),mode)).start()
    if all(state.get(c)=='ok' for c in deps if c not in skip): print('ALL DONE',flush=True); break
    if os.path.exists('/tmp/stop-sched'): break
    time.sleep(1)
