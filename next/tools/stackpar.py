#!/usr/bin/env python3
# merges conflicts in DECISIONS' paragraph of stack figures three-way: text of ours, figures of each side's change
import re,subprocess
def show(i): return subprocess.run(['git','show',f':{i}:docs/DECISIONS.md'],capture_output=True,text=True).stdout
def figs(t):
    m=re.search(r'Measured, in octets of those stated:(.*?)\. ',t.replace('\n  ',' '),flags=re.S)
    return re.findall(r'([a-z ]+?) ([\d,]+) of\s+([\d,]+)',m.group(1)) if m else []
b,o,t=[{n.strip(' ,'):(a,c.strip(',')) for n,a,c in figs(show(i))} for i in (1,2,3)]
order=[n.strip(' ,') for n,_,_ in figs(show(3))]+[n.strip(' ,') for n,_,_ in figs(show(2))]
res={}
for n in dict.fromkeys(order):
    if n in o and (n not in t or n in b and t[n]==b[n]): res[n]=o[n]
    elif n in t: res[n]=t[n]
p='docs/DECISIONS.md'; s=open(p).read()
def f(m):
    h,th=m.group(1),m.group(2)
    if 'Measured, in octets' not in h or 'Measured, in octets' not in th: return m.group(0)
    flat=h.replace('\n  ',' ').rstrip('\n')
    new='Measured, in octets of those stated: '+', '.join(f'{n} {a} of {c}' for n,(a,c) in res.items())+'. '
    flat=re.sub(r'Measured, in octets of those stated:.*?\. ',lambda _:new,flat,count=1,flags=re.S)
    words=flat.split(); lines=[]; cur='  '
    for w in words:
        if len(cur)+len(w)+1>142: lines.append(cur.rstrip()); cur='  '
        cur+=w+' '
    lines.append(cur.rstrip())
    return '\n'.join(lines)+'\n'
s=re.sub(r'<<<<<<< [^\n]*\n(.*?)=======\n(.*?)>>>>>>> [^\n]*\n',f,s,flags=re.S)
open(p,'w').write(s)
import sys; sys.exit(1 if '<<<<<<<' in s else 0)
