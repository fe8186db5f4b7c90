#!/usr/bin/env python3
# cost.py PROVELOG REPO: seconds of a crate times (1 + its edits), most first
import re,sys,glob,os
t={}
for l in open(sys.argv[1]):
    m=re.match(r'rt: (\w+) proved \((\d+) s\)',l)
    if m: t[m[1]]=int(m[2])
rows=[]
for c,s in t.items():
    e=len(glob.glob(f'{sys.argv[2]}/crates/{c}/must-fail/*.edit'))
    rows.append((s*(1+e),s*e,c,s,e))
rows.sort(reverse=True)
print('check',sum(t.values()),'edits',sum(r[1] for r in rows))
for r in rows[:int(sys.argv[3]) if len(sys.argv)>3 else 45]: print(*r)
