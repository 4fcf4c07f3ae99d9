#!/usr/bin/env python3
"""Notes the times of the files that each seed of `rt ci` holds, into /work/prof/seeds: what each function's proof took."""
import glob,os,time,re
os.makedirs('/work/prof/seeds',exist_ok=True)
done=set()
while True:
    for s in glob.glob('/tmp/rt-edits-*/seed'):
        if s in done: continue
        j=glob.glob(s+'/*/judged')
        if not j: continue
        try:
            rows=[]
            base=os.path.dirname(j[0])
            for at,_,names in os.walk(base):
                for n in names:
                    p=f'{at}/{n}'
                    st=os.lstat(p)
                    rows.append((st.st_mtime,st.st_size,os.path.relpath(p,base)))
        except OSError: continue
        done.add(s)
        rows.sort()
        c={}
        for _,_,n in rows:
            m=re.search(r'Rattle-(\w+)-proofs\.',n)
            if m: c[m[1]]=c.get(m[1],0)+1
        name=max(c,key=c.get) if c else os.path.basename(os.path.dirname(s))
        with open(f'/work/prof/seeds/{name}.txt','w') as o:
            for r in rows: o.write('%.3f %d %s\n'%r)
    time.sleep(1)
