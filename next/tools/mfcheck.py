import re,os,glob
s=open('docs/MUST-FAIL.md',encoding='utf8').read()
have={e.split('/')[1]+'/'+os.path.basename(e)[:-5] for e in glob.glob('crates/*/must-fail/*.edit')}
names={}
for h in have: names.setdefault(h.split('/')[1],[]).append(h)
for m in sorted(set(re.findall(r'\b([a-z_]+/[A-Za-z0-9_]+)\b',s))):
    if m in have: continue
    if m.split('/')[0] in os.listdir('crates'):
        print('missing',m,'->',names.get(m.split('/')[1]))
