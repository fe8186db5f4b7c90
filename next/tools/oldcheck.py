#!/usr/bin/env python3
# every edit's 'old:' text must occur exactly once in its file (after the edit's earlier replacements)
import sys,glob,os
root=sys.argv[1] if len(sys.argv)>1 else '.'
bad=0;n=0
for e in sorted(glob.glob(root+'/crates/*/must-fail/*.edit')):
    n+=1
    crate=e.split('/must-fail/')[0]
    f=None;old=None;texts={}
    for line in open(e,encoding='utf8').read().split('\n'):
        if line.startswith('file: '): f=line[6:]
        elif line.startswith('old: '): old=line[5:]
        elif line.startswith('new:'):
            new=line[4:]
            if new.startswith(' '): new=new[1:]
            p=crate+'/'+f
            if p not in texts:
                if not os.path.exists(p): print('NOFILE',e,f); bad+=1; break
                texts[p]=open(p,encoding='utf8').read()
            c=texts[p].count(old)
            if c!=1: print('COUNT',c,e,'|',old[:100]); bad+=1; break
            texts[p]=texts[p].replace(old,new)
print(n,'edits',bad,'bad')
sys.exit(bad>0)
