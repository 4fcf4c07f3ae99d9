"""named.py ROOT [--fix]: crates that a line of crates.txt lacks or names without need (by mentions in .rt and .antt)"""
import re,os,sys
root=sys.argv[1]; os.chdir(root)
order=[];deps={};raw={}
for line in open('crates.txt'):
    m=re.match(r'^([a-z_0-9]+)([^:]*):(.*)$',line.rstrip('\n'))
    if m and not line.startswith('#'):
        order.append(m[1]); deps[m[1]]=m[3].split()
ours=set(order)
for c in order:
    named=set()
    for d,ds,fs in os.walk(f'crates/{c}'):
        if '/out' in d: continue
        for n in fs:
            if n.endswith(('.rt','.antt')):
                t=open(os.path.join(d,n)).read()
                named|=set(re.findall(r'\bRattle\.([a-z_0-9]+)\.',t)); named|=set(re.findall(r'(?<![\w:])([a-z_0-9]+)::',t))
    named=(named&ours)-{c}
    have=set(deps[c])&ours
    lack=named-have; spare=have-named
    late=[x for x in named if order.index(x)>order.index(c)]
    if lack or spare or late: print(c,'lacks',sorted(lack),'spare',sorted(spare),'late',late)
    if '--fix' in sys.argv:
        deps[c]=[x for x in deps[c] if x not in spare]
        for x in sorted(lack,key=order.index):
            at=0
            for i,y in enumerate(deps[c]):
                if y in ours and order.index(y)<order.index(x): at=i+1
            deps[c].insert(at,x)
if '--fix' in sys.argv:
    out=[]
    for line in open('crates.txt'):
        m=re.match(r'^([a-z_0-9]+)([^:]*):(.*)$',line.rstrip('\n'))
        if m and not line.startswith('#'): out.append(f"{m[1]}{m[2]}:{''.join(' '+x for x in deps[m[1]])}\n")
        else: out.append(line)
    open('crates.txt','w').writelines(out)
