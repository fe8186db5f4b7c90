#!/usr/bin/env python3
# beforeafter.py BEFORE.. -- AFTER..: the note's tables of the library's own times, the least of the runs, before -> after, and how many times as fast
import re,sys,collections
i=sys.argv.index('--'); before,after=sys.argv[1:i],sys.argv[i+1:]
U={'ns':1e-3,'µs':1.0,'ms':1e3}
def us(s):
    m=re.match(r'([\d.]+)(ns|µs|ms|s)$',s); return float(m[1])*U.get(m[2],1e6)
def show(x): return f'{x:.1f} µs' if x<100 else (f'{x:.0f} µs' if x<1000 else f'{x/1000:.1f} ms')
def load(logs):
    d=collections.OrderedDict()
    for log in logs:
        for l in open(log):
            m=re.match(r'(plan|most), best of LEMON\s+(.*?), (amount|horizon) (\d+)\s+(\S+)\s+(\S+)\s+([\d.]+)\s*$',l)
            if m:
                k=(m[1],m[2].strip(),int(m[4])); d[k]=min(d.get(k,1e99),us(m[5]))
            m=re.match(r"examine, oracle's sweep\s+(.*?)\s{2,}(\S+)\s+(\S+)\s+([\d.]+)\s*$",l)
            if m:
                k=('examine',m[1],0); d[k]=min(d.get(k,1e99),us(m[2]))
                k=('sweep',m[1],0); d[k]=min(d.get(k,1e99),us(m[3]))
    return d
b,a=load(before),load(after)
fams=list(collections.OrderedDict.fromkeys(k[1] for k in a if k[0]=='plan'))
def cell(k):
    x,y=b.get(k),a.get(k)
    f=x/y
    return f'{show(x)} → {show(y)}, '+(f'{f:.2f}' if f<10 else f'{f:.1f}' if f<100 else f'{f:.0f}')
for op,cols,head in (('plan',[1,1000,10**6,10**8],'| plan | 1 block | 1,000 | 1,000,000 | 100,000,000 |'),('most',[1000,20000,100063000],'| most | by slot 1,000 | by 20,000 | by 100,063,000 |')):
    print(head); print('|---'*(len(cols)+1)+'|')
    for f in fams: print(f'| {f} | '+' | '.join(cell((op,f,c)) for c in cols)+' |')
    print()
print("| examine | before → after | the independent sweep of tests/ |\n|---|---|---|")
for k in a:
    if k[0]=='examine': print(f'| {k[1]} | {cell(k)} | {show(a[("sweep",k[1],0)])} |')
import statistics
for c in [1,1000,10**6,10**8]:
    print(c, round(statistics.median(b[k]/a[k] for k in a if k[0]=='plan' and k[2]==c),2))
