#!/usr/bin/env python3
# stackfix.py: conflicts in docs/DECISIONS.md about the measured stack: theirs, with ours' figure of examine
import re
p='docs/DECISIONS.md'; s=open(p).read()
while '<<<<<<<' in s:
    i=s.index('<<<<<<<'); a=s.index('\n',i)+1; m=s.index('=======\n',a); j=s.index('>>>>>>>',m); k=s.index('\n',j)+1
    o=s[a:m]; t=s[m+8:j]
    if 'Measured, in octets' not in o: raise SystemExit('another conflict: '+o[:200])
    f=re.search(r'examine ([\d,]+) of',o)[1]
    t=re.sub(r'examine [\d,]+ of','examine '+f+' of',t)
    s=s[:i]+t+s[k:]
open(p,'w').write(s)
