#!/usr/bin/env python3
# samples rattle processes: processor seconds per crate and kind; appended to cpu.txt at the process's end
import os, time
T=os.sysconf('SC_CLK_TCK'); seen={}
out=open('/work/helpers/cpu.txt','a',buffering=1)
while True:
    now={}
    for p in os.listdir('/proc'):
        if not p.isdigit(): continue
        try:
            w=open(f'/proc/{p}/cmdline').read().split('\0')
            if 'rattle' not in os.path.basename(w[0]) : continue
            st=open(f'/proc/{p}/stat').read().rsplit(')',1)[1].split()
            cpu=(int(st[11])+int(st[12])+int(st[13])+int(st[14]))/T
            start=st[19]
            cwd=os.readlink(f'/proc/{p}/cwd')
            rss=int(open(f'/proc/{p}/statm').read().split()[1])*4//1024
        except Exception: continue
        name=w[w.index('--crate-name')+1] if '--crate-name' in w else '?'
        kind=(w[1] if len(w)>1 else '?')+(' test' if '--test' in w else '')+(' only' if '--only' in w else '')
        src=[x for x in w if x.endswith('.rt')]
        now[(p,start)]=(name,kind,cpu,cwd,max(rss,seen.get((p,start),(0,)*5)[4]),src[-1] if src else '')
    for k in list(seen):
        if k not in now:
            n=seen.pop(k); out.write(f"{time.strftime('%H:%M:%S')} {n[0]} {n[1]} {n[2]:.1f} {n[4]}MB {n[5]}\n")
    seen.update(now); time.sleep(2)
