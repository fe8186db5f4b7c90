#!/usr/bin/env python3
# mftable.py: resolve conflicts in docs/MUST-FAIL.md: rows of the second table (| crate | `fn`: edits; .. |) take the union of both sides,
# without edits that are not in the tree; other lines: ours, then theirs that ours has not
import os,re
p='docs/MUST-FAIL.md'; s=open(p).read()
def parse(row):
    m=re.match(r'\| (\w+) \| (.*) \|$',row)
    if not m or not os.path.isdir('crates/'+m[1]): return None
    d={}; order=[]
    for part in m[2].split('; '):
        k,_,v=part.partition(': ')
        d[k]=v if v=='no promise' else [x for x in v.split(', ')]; order.append(k)
    return m[1],order,d
def there(c,e): return os.path.exists(f'crates/{c}/must-fail/{e}.edit')
while '<<<<<<<' in s:
    i=s.index('<<<<<<<'); a=s.index('\n',i)+1; m=s.index('=======\n',a); j=s.index('>>>>>>>',m); k=s.index('\n',j)+1
    ours=s[a:m].splitlines(); theirs=s[m+8:j].splitlines(); out=[]
    tp={}; tkeys=[]
    for l in theirs:
        q=parse(l)
        if q: tp[q[0]]=q; tkeys.append(q[0])
    done=set()
    for l in ours:
        q=parse(l)
        if not q: out.append(l); continue
        c,order,d=q
        if c in tp:
            for f in tp[c][1]:
                v=tp[c][2][f]
                if f not in d: d[f]=v; order.append(f)
                elif v!='no promise': d[f]=sorted(set(d[f])|set(v))
        done.add(c)
        parts=[]
        for f in order:
            if d[f]=='no promise': parts.append(f'{f}: no promise'); continue
            es=[e for e in d[f] if there(c,e)]
            if es: parts.append(f'{f}: '+', '.join(es))
        out.append(f'| {c} | '+'; '.join(parts)+' |')
    for l in theirs:
        q=parse(l)
        if q:
            if q[0] not in done: out.append(l)
        elif l not in ours: out.append(l)
    s=s[:i]+'\n'.join(out)+'\n'+s[k:]
open(p,'w').write(s)
