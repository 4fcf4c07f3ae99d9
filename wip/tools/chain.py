#!/usr/bin/env python3
"""chain.py CRATE..: gives the proofs of these crates, in whatever run, priority over all other provers."""
import os, sys, time
first = set(sys.argv[1:])
done = {}
while True:
    for p in os.listdir('/proc'):
        if not p.isdigit(): continue
        try:
            c = open(f'/proc/{p}/cmdline').read().split('\0')
            if 'rattle' not in os.path.basename(c[0]) and 'antt' not in os.path.basename(c[0]): continue
            cwd = os.readlink(f'/proc/{p}/cwd')
            nice = -10 if cwd.startswith('/work/') and os.path.basename(cwd) in first else 5
            if os.getpriority(os.PRIO_PROCESS, int(p)) != nice:
                for t in os.listdir(f'/proc/{p}/task'):
                    os.setpriority(os.PRIO_PROCESS, int(t), nice)
        except OSError: pass
    time.sleep(3)
