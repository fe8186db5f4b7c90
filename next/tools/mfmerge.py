#!/usr/bin/env python3
# mfmerge.py N: resolve docs/MUST-FAIL.md: ours, then of theirs the lines '| N: ..'
import sys
p='docs/MUST-FAIL.md'; s=open(p).read()
while '<<<<<<<' in s:
    i=s.index('<<<<<<<'); a=s.index('\n',i)+1; m=s.index('=======\n',a); j=s.index('>>>>>>>',m); k=s.index('\n',j)+1
    o=s[a:m]; t=''.join(l for l in s[m+8:j].splitlines(1) if l.startswith('| %s:'%sys.argv[1]) and l not in o)
    s=s[:i]+o+t+s[k:]
open(p,'w').write(s)
