#!/usr/bin/env python3
# sort crates.txt by level (longest chain of dependencies), within a level by check time, longest first
import re,sys
times=dict(l.split() for l in open(__import__('os').environ['HELPERS']+'/times.txt'))
deps={};
for l in open('crates.txt'):
    if l.startswith('#') or ':' not in l: continue
    n,r=l.split(':',1); deps[n.strip()]=r.split()
lev={}
def level(n):
    if n not in deps: return -1
    if n not in lev: lev[n]=1+max([level(d) for d in deps[n]],default=-1)
    return lev[n]
for n in deps: level(n)
order=sorted(deps,key=lambda n:(lev[n],-int(times.get(n,5)),n))
rank={n:i for i,n in enumerate(order)}
out=["# NAME: the crates it uses. Lowest first. Crates of one level, which need nothing of each other, stand by the time that they take to",
"# prove, longest first: rt proves them RT_JOBS at a time and waits for the slowest."]
for n in order:
    ds=sorted(deps[n],key=lambda a:rank.get(a,999))
    out.append((n+': '+' '.join(ds)).rstrip())
open('crates.txt','w').write('\n'.join(out)+'\n')
