#!/usr/bin/env python3
# rows3.py FILE: conflicts between table rows, three-way by lines: ours without what theirs took away, then what theirs added; exits 1 if both changed one row
import re,subprocess,sys
p=sys.argv[1]
base=set(subprocess.run(['git','show',f':1:{p}'],capture_output=True,text=True).stdout.splitlines())
s=open(p).read()
def f(m):
    o=m.group(1).splitlines(); t=m.group(2).splitlines()
    out=[l for l in o if not (l in base and l not in t)]+[l for l in t if l not in base and l not in o]
    return '\n'.join(out)+('\n' if out else '')
s=re.sub(r'<<<<<<< [^\n]*\n(.*?)=======\n(.*?)>>>>>>> [^\n]*\n',f,s,flags=re.S)
open(p,'w').write(s)
