import re,glob,sys,os
root=sys.argv[1]
rows={}
order=[]
for l in open(root+'/crates.txt'):
    if l.startswith('#') or ':' not in l: continue
    c,d=l.split(':'); rows[c]=d.split(); order.append(c)
def calls(rows):
    n={}
    for c in order:
        n[c]=1+sum(n.get(d,0) for d in rows[c])
    return n
n=calls(rows)
print('total calls below() once each', sum(n.values()), sorted(n.items(),key=lambda x:-x[1])[:6])
used={}
for c in order:
    fs=[f for pat in ('src','specs','proofs','must-fail') for f in glob.glob(f'{root}/crates/{c}/{pat}/**/*',recursive=True) if os.path.isfile(f)]
    text='\n'.join(open(f).read() for f in fs)
    used[c]=[d for d in rows[c] if re.search(r'\b'+d+r'\b',text)]
p=calls(used)
print('pruned', sum(p.values()), sorted(p.items(),key=lambda x:-x[1])[:6])
print('unused rows', sum(len(rows[c])-len(used[c]) for c in order), 'of', sum(len(r) for r in rows.values()))
for c in order:
    u=[d for d in rows[c] if d not in used[c]]
    if u and len(sys.argv)>2: print(c,u)
