#!/usr/bin/env python3
# in a repo with crates.txt in conflict: three-way union of the dependency lists, topologically sorted, stable
import subprocess
def show(stage):
    return subprocess.run(['git','show',f':{stage}:crates.txt'],capture_output=True,text=True).stdout
def parse(t):
    d={};order=[];comments={}
    pend=[]
    import re
    t=re.sub(r'\bgroups\b','buckets',t)
    for l in t.split('\n'):
        if l.startswith('#'): pend.append(l); continue
        if ':' not in l: continue
        n,r=l.split(':',1); n=n.strip(); d[n]=r.split(); order.append(n)
        if pend: comments[n]=pend; pend=[]
    return d,order,comments
b,bo,bc=parse(show(1)); o,oo,oc=parse(show(2)); t,to,tc=parse(show(3))
names=[n for n in oo if not (n in b and n not in t)]
for i,n in enumerate(to):
    if n not in names and not (n in b and n not in o):
        # insert after predecessor in theirs
        j=i-1
        while j>=0 and to[j] not in names: j-=1
        names.insert(names.index(to[j])+1 if j>=0 else 0,n)
deps={}
for n in names:
    x=o.get(n,[]);y=t.get(n,[]);z=b.get(n,[])
    u=[]
    for a in x+y:
        if a in u: continue
        if a in z and ((n in o and a not in x) or (n in t and a not in y)): continue
        u.append(a)
    deps[n]=u
# stable topological order
out=[];left=list(names)
while left:
    for n in left:
        if all(a in out or a not in deps for a in deps[n]):
            out.append(n); left.remove(n); break
    else: raise SystemExit('cycle '+str(left))
rank={n:i for i,n in enumerate(out)}
lines=['# NAME: the crates it uses. Lowest first.']
progs=[n for n in ('list','listings','vectors','expanded') if n in out]
for n in [x for x in out if x not in progs]+['#']+progs:
    if n=='#': lines.append('# programs'); continue
    ds=sorted(deps[n],key=lambda a: rank.get(a,999))
    lines.append((n+': '+' '.join(ds)).rstrip())
open('crates.txt','w').write('\n'.join(lines)+'\n')
