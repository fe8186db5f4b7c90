#!/usr/bin/env python3
# note23.py BEFORE.. -- AFTER..: writes the section Times of docs/changes/23-speed.md anew from logs of tests/bench (in the clone that it is run in)
import subprocess,sys,re
i=sys.argv.index('--'); before,after=sys.argv[1:i],sys.argv[i+1:]
import os; T=os.environ['HELPERS']+'/tools/'
table=subprocess.run(['python3',T+'benchtable.py']+after,capture_output=True,text=True).stdout.split('\n')
rows=[l for l in table if l.startswith('|') and 'median of instances' not in l]
med=[l for l in table if 'median of instances' in l]
ba=subprocess.run(['python3',T+'beforeafter.py']+before+['--']+after,capture_output=True,text=True).stdout
ba='\n'.join(l for l in ba.split('\n') if l.startswith('|') or l=='').strip()
intro='''## Times

The ratio to the best LEMON variant of each instance (liblemon 1.3.1; above 1 the library is faster), medians of seven full-size networks of each
family (network A: one), from two runs of `tests/bench` with nothing beside them, the library and LEMON in turn on one processor. LEMON's time is that
of building the graph from numbers in memory and solving; its answer is the number of slots or blocks. The library reads and checks the record, and
makes, writes and certifies the plan with its rows, its cut and the network that it carries.

'''
text=intro+'\n'.join(rows)+'\n'+'\n'.join(med)+'''

The library before (request 8) and after, by the same program, medians as above, the least of two runs each. Behind each pair: how many times as fast.

'''+ba+'\n\n'
p='docs/changes/23-speed.md'
t=open(p,encoding='utf8').read()
a=t.index('## Times\n'); b=t.index('## What is not reached')
t=t[:a]+text+t[b:]
open(p,'w',encoding='utf8').write(t)
