#!/usr/bin/env python3
"""merge.py ROOT PLAN: moves crates of ROOT by PLAN, lines 'OLD NEW MODULE' (MODULE '-' = the new crate's root).
An OLD not named keeps its place. Rewrites use lines and paths everywhere; specs and laws are put flat, or below the module's name where
two files of one new crate would have one name."""
import sys,os,re,shutil,glob,collections
root,planfile=sys.argv[1:3]
C=os.path.join(root,'crates')
plan={}
order=[]
for l in open(planfile):
    l=l.split('#')[0].split()
    if l: plan[l[0]]=(l[1],'' if l[2]=='-' else l[2], len(l)>3 and l[3]=='pub'); order.append(l[0])
crates=sorted(os.listdir(C))
def new(o): return plan[o][0] if o in plan else o
def mod(o): return plan[o][1] if o in plan else ''
groups=collections.defaultdict(list)
for o in order: groups[plan[o][0]].append(o)
# names of spec and law files
specs={c:[f[:-5] for f in (os.listdir(f'{C}/{c}/specs') if os.path.isdir(f'{C}/{c}/specs') else []) if f.endswith('.antt') and f!='Lib.antt'] for c in crates}
laws={c:[f[:-5] for f in (os.listdir(f'{C}/{c}/proofs') if os.path.isdir(f'{C}/{c}/proofs') else []) if f.endswith('.antt') and f!='Lib.antt'] for c in crates}
mods={c:[f[:-3] for f in os.listdir(f'{C}/{c}/src') if f not in('lib.rt','main.rt')] for c in crates}
def haspub(o):
    return True
ren_s={};ren_l={}
camel=lambda m:''.join(p.capitalize() for p in m.split('_'))
for n,os_ in groups.items():
    modnames={mod(o).lower() for o in os_ if mod(o)}
    for kind,files,ren in(('s',specs,ren_s),('l',laws,ren_l)):
        cnt=collections.Counter(x.lower() for o in os_ for x in files[o])
        for o in os_:
            for x in files[o]:
                y=x
                if cnt[x.lower()]>1 and mod(o): y=camel(mod(o))+x
                elif kind=='l' and x.lower() in modnames: y=x+'Laws' if not x.endswith('s') else x+'Law'
                ren[(o,x)]=y
def antt(text,me):
    # me: the old crate of the file
    def f(m):
        o,kind,tail=m.group(1),m.group(2),m.group(3)
        if o not in plan: return m.group(0)
        N,M=new(o),mod(o)
        head=f'Rattle.{N}.{kind}.'
        parts=tail.split('.',1); first=parts[0]; rest=('.'+parts[1]) if len(parts)>1 else ''
        if kind=='specs':
            if first=='declared': return head+'declared'+('.'+M if M else '')+rest
            return head+ren_s.get((o,first),first)+rest
        if (o,first) in ren_l: return head+ren_l[(o,first)]+rest
        return head+(M+'.' if M else '')+first+rest
    return re.sub(r'\bRattle\.([a-z_]+)\.(specs|proofs)\.([A-Za-z_+][\w.+]*\w)',f,text)
def rust(text,me):
    n=new(me); out=[]
    for line in text.split('\n'):
        if line.lstrip().startswith('//'): out.append(line); continue
        if line.lstrip().startswith('ghost use'): out.append(antt(line,me)); continue
        def f(m):
            o,x=m.group(1),m.group(2)
            if o not in plan or o==me and False: return m.group(0)
            N,M=new(o),mod(o)
            p='crate' if N==n else N
            return p+('::'+M if M else '')+'::'+x
        line=re.sub(r'(?<![:\w])([a-z_]+)::(\w+|\{)',f,line)
        out.append(antt(line,me))
    return '\n'.join(out)
stage=os.path.join(root,'crates.new'); shutil.rmtree(stage,ignore_errors=True); os.makedirs(stage)
def w(p,t):
    os.makedirs(os.path.dirname(p),exist_ok=True)
    open(p,'w').write(t)
libs=collections.defaultdict(list); rootsrc={}; sl=collections.defaultdict(list); ll=collections.defaultdict(list)
edits=collections.defaultdict(dict)
pubs=set()
for c in crates:
    N,M=new(c),mod(c); D=f'{stage}/{N}'; S=f'{C}/{c}'
    merged=N in groups
    for dp,dn,fn in os.walk(S):
        for f in fn:
            p=os.path.join(dp,f); rel=os.path.relpath(p,S); t=None
            if rel.startswith('src/') and f.endswith('.rt'):
                t=rust(open(p).read(),c)
                if merged and rel=='src/lib.rt':
                    code=re.sub(r'^\s*//.*$','',t,flags=re.M).strip()
                    if M:
                        if not code: continue
                        libs[N].append((M,c)); w(f'{D}/src/{M}.rt',re.sub(r'^#!\[tactic\(auto\)\]\n+','',t,flags=re.M))
                    else: rootsrc.setdefault(N,[]).append((order.index(c),t))
                    continue
                w(f'{D}/{rel}',t); continue
            if rel.startswith('specs/'):
                t=antt(open(p).read(),c)
                if merged:
                    if f=='Lib.antt': continue
                    y=ren_s[(c,f[:-5])]; sl[N].append(y); w(f'{D}/specs/{y}.antt',t)
                else: w(f'{D}/{rel}',t)
                continue
            if rel.startswith('proofs/'):
                t=antt(open(p).read(),c)
                if merged:
                    if rel=='proofs/Lib.antt': continue
                    if rel.count('/')==1:
                        y=ren_l[(c,f[:-5])]; ll[N].append(y); w(f'{D}/proofs/{y}.antt',t)
                    else:
                        head=rel.split('/')[1]
                        if (c,head) in ren_l: w(f'{D}/proofs/{ren_l[(c,head)]}/'+'/'.join(rel.split('/')[2:]),t)
                        else: w(f'{D}/proofs/{M+"/" if M else ""}'+rel[7:],t)
                else: w(f'{D}/{rel}',t)
                continue
            if rel.startswith('must-fail/'):
                t=open(p).read()
                if merged:
                    def ff(m):
                        g=m.group(1)
                        if g=='src/lib.rt': g=f'src/{M}.rt' if M else g
                        elif g.startswith('specs/'): g='specs/'+ren_s.get((c,g[6:-5]),g[6:-5])+'.antt'
                        elif g.startswith('proofs/') and g.count('/')==1: g='proofs/'+ren_l.get((c,g[7:-5]),g[7:-5])+'.antt'
                        elif g.startswith('proofs/') and M: g=f'proofs/{M}/'+g[7:]
                        return 'file: '+g
                    t=re.sub(r'^file: (\S+)',ff,t,flags=re.M)
                    t='\n'.join(antt(rust(x,c),c) if x.startswith(('old:','new:')) else x for x in t.split('\n'))
                    e=f
                    if e in edits[N]: e=f'{M}_{f}'
                    edits[N][e]=1; w(f'{D}/must-fail/{e}',t)
                else: w(f'{D}/{rel}',antt(t,c))
                continue
            os.makedirs(os.path.dirname(f'{D}/{rel}'),exist_ok=True); shutil.copy(p,f'{D}/{rel}')
def join(ts):
    ts=[t for t in ts if re.sub(r'^\s*//.*$','',t,flags=re.M).strip()] or ts[:1]
    if not ts: return ''
    if len(ts)==1: return ts[0]
    head=[];uses={};plain=[];body=[]
    for k,t in enumerate(ts):
        lines=t.split('\n'); i=0
        while i<len(lines) and lines[i].startswith('//'):
            if k==len(ts)-1: head.append(lines[i])
            i+=1
        for l in lines[i:]:
            m=re.match(r'ghost use (\S+?)\.\{(.*)\};$',l)
            if m: uses.setdefault(m.group(1),[]).extend(x for x in m.group(2).split(', ') if x not in uses.get(m.group(1),[]))
            elif re.match(r'(ghost )?use ',l):
                if l not in plain: plain.append(l)
            else: body.append(l)
    return '\n'.join(head+[f"ghost use {a}.{{{', '.join(b)}}};" for a,b in uses.items()]+plain+body)
# which modules are used from other crates
alltext={N:''.join(open(f).read() for f in glob.glob(f'{stage}/{N}/**/*.rt',recursive=True)+glob.glob(f'{stage}/{N}/**/*.antt',recursive=True)) for N in os.listdir(stage)}
for N in rootsrc: alltext[N]=alltext.get(N,'')+''.join(x for _,x in rootsrc[N])
for N in groups:
    out=[]
    t=join([x for _,x in sorted(rootsrc.get(N,[]))]) or f'// {N}.\n'
    t=re.sub(r'^use crate::[A-Za-z_]+;\n','',t,flags=re.M)
    t=re.sub(r'^#!\[tactic\(auto\)\]\n+','',t,flags=re.M)
    lines=t.split('\n'); i=0
    while i<len(lines) and lines[i].startswith('//'): i+=1
    lines[i:i]=['#![tactic(auto)]','']; i+=2
    ms=[]
    for M,c in sorted(libs[N]):
        used=any(re.search(rf'(?<![:\w]){N}::{M}::|Rattle\.{N}\.(specs\.declared|proofs)\.{M}\.',alltext[X]) for X in alltext if X!=N)
        ms.append(('pub ' if used else '')+f'mod {M};')
    w(f'{stage}/{N}/src/lib.rt','\n'.join(lines[:i]+ms+([''] if ms else [])+lines[i:]))
    if sl[N]: w(f'{stage}/{N}/specs/Lib.antt',''.join(f'pub mod {x}\n' for x in sorted(sl[N])))
    if ll[N]: w(f'{stage}/{N}/proofs/Lib.antt',''.join(f'pub mod {x}\n' for x in sorted(ll[N])))
# crates.txt
deps={}; kinds={}
for l in open(f'{root}/crates.txt'):
    if l.strip() and not l.startswith('#'):
        a,b=l.split(':'); a=a.split(); deps[a[0]]=b.split(); kinds[a[0]]=' '.join(a[1:])
nd={}
for o,d in deps.items():
    N=new(o); s=nd.setdefault(N,[])
    for x in d:
        y=new(x) if x in plan else x
        if y!=N and y not in s: s.append(y)
with open(f'{root}/crates.txt','w') as g:
    for n,d in nd.items(): g.write(f'{n}{" "+kinds[n] if kinds.get(n) else ""}: {" ".join(d)}\n')
shutil.rmtree(C); os.rename(stage,C)
print(len(nd),'crates')
# levels, cycles
lev={}
def L(n,st=()):
    if n in st: print('CYCLE',' -> '.join(st[st.index(n):]+(n,))); return 0
    if n in lev: return lev[n]
    lev[n]=1+max([L(d,st+(n,)) for d in nd[n] if d in nd] or [-1]); return lev[n]
for n in nd: L(n)
