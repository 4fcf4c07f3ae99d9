#!/usr/bin/env python3
"""build_libs.py ROOT JOBS [TOP..]: statement libraries of all crates that the named ones stand on, in order, into /work/look/rlib (as timed.sh with BUILD=1 does)."""
import os,re,subprocess,sys,threading,time
root,jobs=sys.argv[1],int(sys.argv[2]); tops=sys.argv[3:]
deps={}
for l in open(f'{root}/crates.txt'):
    m=re.match(r'(\w+)([^:#]*):\s*(.*)',l)
    if m and not l.startswith('#'): deps[m.group(1)]=m.group(3).split()
need=set()
def clo(c):
    for d in deps.get(c,[]):
        if d in deps and d not in need: need.add(d); clo(d)
for t in tops or list(deps): clo(t)
done=set(); running={}; todo=[c for c in deps if c in need and not os.path.isdir(f'/work/look/rlib/{c}/{c}.rlib')]
done={c for c in need if c not in todo}
t0=time.time()
while todo or running:
    for c,p in list(running.items()):
        if p.poll() is not None:
            ok=os.path.isdir(f'/work/look/rlib/{c}/{c}.rlib')
            print('%.0f'%(time.time()-t0),c,'ok' if ok else 'FAILED',flush=True)
            del running[c]; done.add(c)
    for c in list(todo):
        if len(running)<jobs and all(d in done or d not in deps for d in deps[c]):
            todo.remove(c)
            e=dict(os.environ,BUILD='1',LIST=f'{root}/crates.txt')
            running[c]=subprocess.Popen(['/work/helpers/timed.sh',root,c,f'{root}/crates/{c}'],env=e)
    time.sleep(0.2)
