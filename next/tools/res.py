#!/usr/bin/env python3
# res.py FILE ours|theirs|both: resolve all conflict hunks
import sys
p,how=sys.argv[1:3]
s=open(p,encoding='utf8').read()
while '<<<<<<<' in s:
    i=s.index('<<<<<<<'); a=s.index('\n',i)+1; m=s.index('=======\n',a); j=s.index('>>>>>>>',m); k=s.index('\n',j)+1
    o=s[a:m]; t=s[m+8:j]
    s=s[:i]+{'ours':o,'theirs':t,'both':o+t}[how]+s[k:]
open(p,'w',encoding='utf8').write(s)
