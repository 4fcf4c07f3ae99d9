import sys,re
from names import Names
# self costs by function of a callgrind out file, for event index (names), sorted
f=sys.argv[1]; key=sys.argv[2]; top=int(sys.argv[3])
nm=Names(); fn=None; ev=None; cost={}; skip=False
for l in open(f):
    l=l.rstrip('\n')
    if l.startswith('events:'): ev=l.split()[1:]; continue
    if l.startswith('fn='): fn=nm(l[3:]); continue
    if l.startswith('cfn='): nm(l[4:]); continue
    if l.startswith('calls='): skip=True; continue
    if re.match(r'^[+\-*\d]',l):
        if skip: skip=False; continue
        p=l.split()
        if len(p)<2: continue
        v=[int(x) for x in p[1:]]+[0]*(len(ev)-len(p)+1)
        c=cost.setdefault(fn,[0]*len(ev))
        for i in range(len(ev)): c[i]+=v[i]
i=ev.index(key)
tot=[sum(c[j] for c in cost.values()) for j in range(len(ev))]
print('total',tot[i])
for fn,c in sorted(cost.items(),key=lambda x:-x[1][i])[:top]:
    print(c[i], 'I1',c[ev.index('I1mr')],'Ir',c[0],fn[:110])
