#!/usr/bin/env python3
# benchtable.py LOG..: the note's table of ratios (best of LEMON / library) from runs of tests/bench, one value a run
import re,sys,collections
cols=[('plan',1),('plan',1000),('plan',10**6),('plan',10**8),('most',1000),('most',20000),('most',1063000),('most',100063000)]
fam=collections.OrderedDict(); med={}; least=[]
for log in sys.argv[1:]:
    for l in open(log):
        m=re.match(r'(plan|most), best of LEMON\s+(.*?), (amount|horizon) (\d+)\s+(\S+)\s+(\S+)\s+([\d.]+)\s*$',l)
        if m: fam.setdefault(m[2].strip(),{}).setdefault((m[1],int(m[4])),[]).append(m[7])
        m=re.match(r'median of the instances, (\w+): (\w+), \w+ (\d+): ([\d.]+)',l)
        if m: med.setdefault(m[1],{}).setdefault((m[2],int(m[3])),[]).append(m[4])
        if l.startswith(('least ratio','slowest','hints')): least.append(l.strip())
print('| best of LEMON ÷ library | plan, 1 block | 1,000 | 1,000,000 | 100,000,000 | most, by slot 1,000 | by 20,000 | by 1,063,000 | by 100,063,000 |\n|---|---|---|---|---|---|---|---|---|')
for f,d in fam.items(): print(f'| {f} | '+' | '.join(', '.join(d.get(c,['–'])) for c in cols)+' |')
for c,d in med.items(): print(f'| median of instances, {c} | '+' | '.join(', '.join(d.get(k,['–'])) for k in cols)+' |')
print('\n'.join(least))
