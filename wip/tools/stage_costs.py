#!/usr/bin/env python3
"""stage_costs.py [CRATE..]: by what `live.py` has noted of a run, how many seconds of each crate's proofs went to which kind of file (Layout, Lts, Proof, Tie, ..)"""
import sys, re, glob, os, collections
files = [f'/work/prof/live/{c}.build.txt' for c in sys.argv[1:]] or sorted(glob.glob('/work/prof/live/*.build.txt'))
tot=collections.Counter(); rows_out=[]
for f in files:
    crate=os.path.basename(f)[:-10]
    rows=[l.rstrip('\n').split(' ',1) for l in open(f)][1:]
    rows=sorted((float(t),n) for t,n in rows)
    if not rows: continue
    st=collections.Counter(); prev=None
    for t,n in rows:
        d=0 if prev is None else t-prev; prev=t
        m=re.search(r'\.(Lts|Proof|Tie|Code|Layout|Spec|Answers|Contract|Search|Goals|Runs|Shape)[\w.+-]*\.oantt$',n)
        k=m[1] if m else ('specs' if '-specs' in n else 'other')
        st[k]+=d
    tot.update(st); rows_out.append((sum(st.values()),crate,st))
for s,c,st in sorted(rows_out,key=lambda x:-x[0])[:40]:
    print(f'{s:7.1f} {c:18s}',', '.join(f'{k} {v:.0f}' for k,v in st.most_common(7)))
print('all',round(sum(tot.values())),', '.join(f'{k} {v:.0f}' for k,v in tot.most_common()))
