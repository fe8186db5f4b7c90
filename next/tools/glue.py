#!/usr/bin/env python3
# glue.py FILE [N=TEXT ..]: both sides of every conflict, with TEXT between those of hunk N (\n is a line end)
import sys
p=sys.argv[1]; g={int(a.split('=',1)[0]):a.split('=',1)[1].replace('\\n','\n') for a in sys.argv[2:]}
s=open(p,encoding='utf8').read(); n=0
while '<<<<<<<' in s:
    i=s.index('<<<<<<<'); a=s.index('\n',i)+1; m=s.index('=======\n',a); j=s.index('>>>>>>>',m); k=s.index('\n',j)+1
    s=s[:i]+s[a:m]+g.get(n,'')+s[m+8:j]+s[k:]; n+=1
open(p,'w',encoding='utf8').write(s)
