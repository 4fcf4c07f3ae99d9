#!/usr/bin/env python3
"""live.py: notes, while `rt` builds crates, when the files of each function's proof were written (/work/prof/live/CRATE.txt); function_costs.py sums them up"""
import glob, os, time
os.makedirs('/work/prof/live', exist_ok=True)
seen = {}
big = open('/work/prof/big.txt', 'a', buffering=1)
while True:
    now = set()
    for d in glob.glob('/tmp/rattle-logic-built-locked-*'):
        pid = d.split('-')[-2]
        try:
            w = open(f'/proc/{pid}/cmdline').read().split('\0')
            crate = w[w.index('--crate-name') + 1]; kind = w[1] + (' test' if '--test' in w else '')
        except Exception: crate = None
        key = d
        now.add(key)
        e = seen.setdefault(key, [None, None, {}, time.time()])
        if crate: e[0], e[1] = crate, kind
        try:
            for f in os.scandir(d):
                if f.name.endswith('.oantt') and f.name not in e[2]:
                    st = f.stat(follow_symlinks=False)
                    e[2][f.name] = (st.st_mtime, st.st_size)
        except OSError: pass
    for k in list(seen):
        if k not in now:
            crate, kind, files, start = seen.pop(k)
            if crate:
                with open(f'/work/prof/live/{crate}.{kind.replace(" ", "_")}.txt', 'w') as o:
                    o.write(f'{start:.3f} start\n')
                    for n, (t, size) in sorted(files.items(), key=lambda x: x[1]):
                        o.write(f'{t:.3f} {n}\n')
                        if n.endswith('.Lts.oantt') and size > 3000000: big.write(f'{size} {crate} {kind} {n}\n')
    time.sleep(1.5)
