#!/usr/bin/env python3
# In a clone: writes crates/listings/stdout anew from crates/listings/src/main.rt by an independent reading (verdicts of accepted plans
# are taken from the stored file, or VERDICT below for new cases), and prints the literal of the case "257 rows, the largest sums".
# After request 3: GROUPS 4, AMOUNT 100000000, LONGEST 100063000; then put the printed literal into `largest` of main.rt and run again.
import re,sys
GROUPS,AMOUNT,LONGEST=3,1000000,1063000
if len(sys.argv)>1 and sys.argv[1] in '37': GROUPS,AMOUNT,LONGEST=4,100000000,100063000
SEVEN=len(sys.argv)>1 and sys.argv[1]=='7'
VERDICT={'# 257 rows, the largest sums':2}
s=open('crates/listings/src/main.rt').read()
old=open('crates/listings/stdout').read()
blocks={}
for part in re.split(r'(?m)^(?=# )',old):
    if part.strip():
        name,rest=part.split('\n',1); blocks[name]=rest
order=re.findall(r'(?m)^    (\w+)\(\);',s[s.index('fn main()'):])
funcs=dict(re.findall(r'fn (\w+)\(\) \{(.*?)\n\}',s,re.S))
octs=lambda l: bytes(int(x,16) for x in re.findall(r'\\x(..)',l))
def leb(n):
    out=[]
    while True:
        b=n%128; n//=128
        if n: out.append(b|128)
        else: out.append(b); return out
enc=lambda ns: [o for n in ns for o in leb(n)]
net_=enc([2,0,1,1,0,1,10000,0]); row=enc([1,0]+([0] if SEVEN else [])+[10000,0,LONGEST])
plan_=enc([AMOUNT,LONGEST,0,LONGEST-1,257])+row*257
print('b"'+''.join('\\x%02x'%x for x in leb(len(net_))+net_+plan_)+'"')
class R(Exception): pass
def num(o,at,lo=None,hi=None,codes=(3,1,2,4)):
    v=0
    for k in range(GROUPS):
        if at+k>=len(o): raise R(codes[1])
        b=o[at+k]; v+=(b%128)<<(7*k)
        if b<128:
            if k>0 and b==0: raise R(codes[2])
            if lo is not None and not lo<=v<=hi: raise R(codes[3])
            return v,at+k+1
        if k==GROUPS-1: raise R(codes[0])
def net(o):
    n,a=num(o,0,2,64); og,a=num(o,a,0,n-1); de,a=num(o,a,0,n-1)
    if og==de: raise R(5)
    m,a=num(o,a,1,256); ls=[]
    for _ in range(m):
        st,a=num(o,a,0,n-1); en,a=num(o,a,0,n-1)
        if st==en: raise R(6)
        c,a=num(o,a,0,10000); t,a=num(o,a,0,1000); ls.append((st,en,c,t))
    if a<len(o): raise R(7)
    return n,ls
def plan(o,n,m):
    C=(16,14,15,17)
    am,a=num(o,0,1,AMOUNT,C); T,a=num(o,a,1,LONGEST,C); cut=[]
    for _ in range(n): c,a=num(o,a,0,LONGEST,C); cut.append(c)
    k,a=num(o,a,1,257,C); rows=[]
    for _ in range(k):
        c,a=num(o,a,1,63,C); es=[]
        for _ in range(c): e,a=num(o,a,0,m-1,C); es.append(e)
        if SEVEN: _,a=num(o,a,0,63000,C)
        r,a=num(o,a,1,10000,C); f,a=num(o,a,0,LONGEST,C); d,a=num(o,a,1,LONGEST,C); rows.append((es,r,f,d))
    if a<len(o): raise R(18)
    return am,T,cut,rows
def parse(o):
    L,a=num(o,0)
    if len(o)-a<L: raise R(1)
    n,ls=net(o[a:a+L]); return (n,ls),plan(o[a+L:],n,len(ls))
def sheet(o):
    try: _,p=parse(o)
    except R as e: return 'refused %d\n'%e.args[0]
    return ''.join('row %d blocks %d\n'%(i,r[1]*r[3]) for i,r in enumerate(p[3]))+'total %d\n'%sum(r[1]*r[3] for r in p[3])
def listing(o,v):
    try: N,p=parse(o)
    except R as e: return 'refused %d\n'%e.args[0]
    b=sum(c*max(0,p[2][en]-p[2][st]-t) for st,en,c,t in N[1])
    t='verdict %d\namount %d horizon %d\n'%(v,p[0],p[1])
    for i,r in enumerate(p[3]): t+='row %d links %s rate %d first %d departures %d\n'%(i,' '.join(map(str,r[0])),r[1],r[2],r[3])
    return t+'cut %s bound %d\n'%(' '.join(map(str,p[2])),b)
out=''
for f in order:
    for name,l in re.findall(r'show\(\s*b"(# [^"]*)\\n",\s*b"([^"]*)",?\s*\)',funcs[f]):
        o=octs(l); v=re.match(r'verdict (\d)',blocks.get(name,''))
        out+=name+'\n'+listing(o,int(v.group(1)) if v else VERDICT.get(name,0))+sheet(o)
open('crates/listings/stdout','w').write(out)
