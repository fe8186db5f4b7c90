import re,sys,collections
t=collections.Counter();n=collections.Counter()
for l in open(sys.argv[1]):
    m=re.match(r'rt: must-fail (\w+)/(\w+): refused.*; (\d+) s\)',l)
    if m: t[m[1]]+=int(m[3]); n[m[1]]+=1
for c,s in t.most_common(): print(c,n[c],s,round(s/n[c],1))
print(sum(n.values()),sum(t.values()))
