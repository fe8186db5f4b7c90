#!/usr/bin/env python3
# words3.py FILE: merges the conflicts of a file word by word, three-way; exits 1 where words conflict (markers stay there)
import re,subprocess,sys,tempfile,os
p=sys.argv[1]
subprocess.run(['git','checkout','-q','--conflict=diff3',p],check=True)
s=open(p,encoding='utf8').read(); bad=[0]
def toks(t): return re.findall(r'\n|[^\s]+|[ \t]+',t)
def f(m):
    o,b,t=m.group(1),m.group(2),m.group(3)
    d=tempfile.mkdtemp(); names=[]
    for n,x in (('o',o),('b',b),('t',t)):
        q=os.path.join(d,n); open(q,'w',encoding='utf8').write('\n'.join(w.replace('\n','\x01') for w in toks(x))+'\n'); names.append(q)
    r=subprocess.run(['git','merge-file','-p',names[0],names[1],names[2]],capture_output=True)
    if r.returncode!=0: bad[0]=1; return m.group(0)
    return ''.join(w.replace('\x01','\n') for w in r.stdout.decode('utf8').split('\n'))
s=re.sub(r'<<<<<<< [^\n]*\n(.*?)\|\|\|\|\|\|\| [^\n]*\n(.*?)=======\n(.*?)>>>>>>> [^\n]*\n',f,s,flags=re.S)
open(p,'w',encoding='utf8').write(s); sys.exit(bad[0])
