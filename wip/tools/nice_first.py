#!/usr/bin/env python3
# nice_first.py PID: provers that descend from PID get nice 12, again and again
import os, sys, time
top = int(sys.argv[1])
def parents():
    out = {}
    for p in os.listdir('/proc'):
        if p.isdigit():
            try: out[int(p)] = int(open(f'/proc/{p}/stat').read().rsplit(')', 1)[1].split()[1])
            except Exception: pass
    return out
while os.path.exists(f'/proc/{top}'):
    up = parents()
    for p in up:
        q = p
        while q in up and q != top and q > 1: q = up[q]
        if q == top and p != top:
            try:
                if os.getpriority(os.PRIO_PROCESS, p) < 12: os.setpriority(os.PRIO_PROCESS, p, 12)
            except Exception: pass
    time.sleep(3)
