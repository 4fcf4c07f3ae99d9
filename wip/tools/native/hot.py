import re,sys,collections,subprocess
f,want,binp,per=sys.argv[1],sys.argv[2],sys.argv[3],int(sys.argv[4])
names={};cost=collections.Counter();addr=0;fn=None;skip=False
def nm(s):
    m=re.match(r'\((\d+)\)(?: (.*))?$',s)
    if m.group(2): names[m.group(1)]=m.group(2)
    return m.group(1)
import glob
b=re.sub(r'\.\d+$','',f)
for o in sorted(glob.glob(b+'*')):
    for l in open(o):
        if l.startswith('fn='): nm(l[3:].strip())
        elif l.startswith('cfn='): nm(l[4:].strip())
for l in open(f):
    l=l.rstrip()
    if l.startswith('fn='): fn=nm(l[3:])
    elif l.startswith('calls='): skip=True; p=l.split(); 
    elif re.match(r'^(0x|\+|-|\*)',l):
        p=l.split()
        a=p[0]
        if a.startswith('0x'): addr=int(a,16)
        elif a.startswith('+'): addr+=int(a[1:])
        elif a.startswith('-'): addr-=int(a[1:])
        if skip: skip=False; continue
        if names.get(fn)==want: cost[addr]+=int(p[2])
tot=sum(cost.values()); print('self',tot,'per',tot/per)
dis=subprocess.run(['objdump','-d','--no-show-raw-insn',binp,f'--start-address={min(cost)}',f'--stop-address={max(cost)+16}'],capture_output=True,text=True).stdout
for l in dis.split('\n'):
    m=re.match(r'\s*([0-9a-f]+):\s*(.*)',l)
    if m:
        a=int(m.group(1),16)
        if cost.get(a): print(f'{cost[a]/per:8.2f} {a:x} {m.group(2)[:90]}')
