# mine.py: conflicts: take theirs, with the words that review changed
import subprocess,re
for p in subprocess.run("git diff --name-only --diff-filter=U",shell=True,capture_output=True,text=True).stdout.split():
    s=open(p,encoding='utf8').read()
    while '<<<<<<<' in s:
        i=s.index('<<<<<<<'); m=s.index('=======\n',i); j=s.index('>>>>>>>',m); k=s.index('\n',j)+1
        s=s[:i]+s[m+8:j]+s[k:]
    s=s.replace("the listing's page in `printing`","the texts' page in `printing`").replace("(`plan_lines::put_plan`, `texts::put_refused`) and lent","(`plan_lines::put_plan`, `sheet_lines::put_sheet`, `texts::put_refused`) and lent")
    open(p,'w',encoding='utf8').write(s); print('mended',p)
