#!/usr/bin/env python3
"""seed_costs.py [CRATE..]: seconds that each function's proof took, by /work/prof/seeds"""
import sys,re,glob,os
files=[f'/work/prof/seeds/{c}.txt' for c in sys.argv[1:]] or sorted(glob.glob('/work/prof/seeds/*.txt'))
every=[]
for f in files:
    crate=os.path.basename(f)[:-4]
    rows=[l.split(' ',2) for l in open(f)]
    rows=[(float(a),int(b),c.strip()) for a,b,c in rows]
    cost={}; prev=None
    for t,sz,n in rows:
        d=0 if prev is None else t-prev
        prev=t
        m=re.search(r'Rattle-\w+-(specs|proofs)\.(.*?)\.oantt$',n)
        if m:
            name=m[2]
            name=re.sub(r'\.decls$','',name)
            parts=name.split('.')
            last=parts[-1]
            if m[1]=='proofs' and len(parts)>1: key='.'.join(parts[:-1]); stage=last
            else: key='specs' ; stage=name
        else: key=n.split('/')[-1]; stage=''
        cost.setdefault(key,[0,{}])
        cost[key][0]+=d; cost[key][1][stage]=cost[key][1].get(stage,0)+d
    total=rows[-1][0]-rows[0][0]
    top=sorted(cost.items(),key=lambda x:-x[1][0])[:12 if sys.argv[1:] else 5]
    print(f'{crate}: {total:.0f} s, {len(cost)} parts')
    for k,(v,st) in top:
        if v>2.5: print(f'   {v:6.1f} {k}  ', ', '.join(f'{a} {b:.1f}' for a,b in sorted(st.items(),key=lambda x:-x[1])[:5] if b>0.4))
