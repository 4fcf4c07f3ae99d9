import re,sys,collections
f=sys.argv[1]; top=int(sys.argv[2]) if len(sys.argv)>2 else 40; who=sys.argv[3] if len(sys.argv)>3 else None
names={}
self_=collections.Counter(); calls=collections.Counter(); callers=collections.Counter()
import glob,os
def nm(s):
    m=re.match(r'\((\d+)\)(?: (.*))?$',s)
    if m.group(2): names[m.group(1)]=m.group(2)
    return m.group(1)
def read(f, count):
    fn=None; skip=False; cfn=None
    for l in open(f):
        l=l.rstrip('\n')
        if l.startswith('fn='): fn=nm(l[3:])
        elif l.startswith('cfn='): cfn=nm(l[4:])
        elif l.startswith('calls='):
            n=int(l[6:].split()[0]); skip=True
            if count: calls[cfn]+=n; 
        elif re.match(r'^[+\-*\d]',l):
            p=l.split()
            if skip:
                if count and len(p)>1: callers[(fn,cfn)]+=int(p[1]); callers[(fn,cfn,'n')]+=n
                skip=False
            elif count and len(p)>1: self_[fn]+=int(p[1])
b=re.sub(r'\.\d+$','',f)
for o in sorted(glob.glob(b+'*')): read(o, False)
read(f, True)
tot=sum(self_.values()); print('total',tot)
for k,v in self_.most_common(top): print(f'{v:12d} {100*v/tot:5.1f}% {calls[k]:8d}x {names.get(k,k)[:110]}')
if who:
    for k,v in callers.items():
        if len(k)==2 and who in names.get(k[1],''): print('   ',names.get(k[0]),'->',names.get(k[1]),v,callers[k+('n',)],'x')
