# conflicts of DECISIONS' stack paragraph: theirs, without the sentence on writing's 4 KB, wrapped again
import re,textwrap,sys
p='docs/DECISIONS.md'
t=open(p,encoding='utf8').read()
ok=True
def f(m):
    global ok
    theirs=m.group(3)
    j=' '.join(theirs.split())
    k=re.sub(r" Writing has 4 KB more since a plan's copy needs the record's length too: `record_length` is called from another crate, so its network is copied\.",'',j)
    if k==j and 'Writing' not in j and 'hints/run' not in j: ok=False; return m.group(0)
    return '\n'.join('  '+l for l in textwrap.wrap(k,138,break_long_words=False,break_on_hyphens=False))+'\n'
t2=re.sub(r'<<<<<<< [^\n]*\n(.*?)(\|\|\|\|\|\|\|.*?)?=======\n(.*?)>>>>>>> [^\n]*\n',f,t,flags=re.S)
if '<<<<<<<' in t2: ok=False
open(p,'w',encoding='utf8').write(t2)
sys.exit(0 if ok else 1)
