# cm.py FILE TOP: per function Ir, D1mr, DLmr, DLmw (self)
import re,sys,collections,glob
f=sys.argv[1]; top=int(sys.argv[2])
names={}
def nm(s):
    m=re.match(r'\((\d+)\)(?: (.*))?$',s)
    if m.group(2): names[m.group(1)]=m.group(2)
    return m.group(1)
ev=None; S=collections.defaultdict(lambda: [0]*16)
def read(f,count):
    global ev
    fn=None; skip=False
    for l in open(f):
        l=l.rstrip('\n')
        if l.startswith('events:'): ev=l.split()[1:]
        elif l.startswith('fn='): fn=nm(l[3:])
        elif l.startswith('cfn='): nm(l[4:])
        elif l.startswith('calls='): skip=True
        elif re.match(r'^[+\-*\d]',l):
            p=l.split()
            if skip: skip=False
            elif count:
                for i,x in enumerate(p[1:]): S[fn][i]+=int(x)
b=re.sub(r'\.\d+$','',f)
for o in sorted(glob.glob(b+'*')): read(o,False)
read(f,True)
i=[ev.index(x) for x in ('Ir','D1mr','D1mw','DLmr','DLmw')]
tot=[sum(v[k] for v in S.values()) for k in i]; print('total',tot)
for k,v in sorted(S.items(), key=lambda kv:-kv[1][i[3]]-kv[1][i[4]])[:top]:
    print(*[f'{v[k]:10d}' for k in i], names.get(k,k)[:100])
