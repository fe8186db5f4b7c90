#!/usr/bin/env python3
# hunk.py FILE CHOICE..: resolves conflict hunks in order: o ours, t theirs, b both (ours then theirs); then 'sub A B' pairs follow
import sys,re
p=sys.argv[1]; ch=sys.argv[2]; subs=sys.argv[3:]
s=open(p,encoding='utf8').read(); i=0
def rep(m):
    global i
    c=ch[i]; i+=1
    o,t=m[1],m[2]
    return o if c=='o' else t if c=='t' else o+t
s=re.sub(r'<<<<<<< [^\n]*\n(.*?)=======\n(.*?)>>>>>>> [^\n]*\n',rep,s,flags=re.S)
for a,b in zip(subs[::2],subs[1::2]):
    assert s.count(a)==1,(a,s.count(a)); s=s.replace(a,b)
open(p,'w',encoding='utf8').write(s); print(i,'hunks')
