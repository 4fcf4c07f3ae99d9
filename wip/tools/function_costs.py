#!/usr/bin/env python3
"""function_costs.py [CRATE..]: seconds that each function's proof took in a run, by what `live.py` has noted; TOP says how many are told"""
import sys, re, glob, os
files = [f'/work/prof/live/{c}.build.txt' for c in sys.argv[1:]] or sorted(glob.glob('/work/prof/live/*.txt'))
every = []; totals = []
for f in files:
    crate = os.path.basename(f)[:-4]
    rows = [l.rstrip('\n').split(' ', 1) for l in open(f)][1:]
    rows = sorted((float(t), n) for t, n in rows)
    if not rows: continue
    cost = {}; prev = None
    for t, n in rows:
        d = 0 if prev is None else t - prev
        prev = t
        m = re.search(r'^Rattle-\w+-proofs\.(.*)\.oantt$', n)
        if m:
            parts = m[1].split('.')
            cut = next((i for i, p in enumerate(parts) if p in ('Lts', 'Proof', 'Tie', 'Code', 'Layout', 'Spec', 'Answers', 'Contract', 'Search', 'Goals', 'Runs', 'Shape')), len(parts) - 1)
            key, stage = '.'.join(parts[:cut]), '.'.join(parts[cut:])
        else: key, stage = '(specs)', n[:40]
        c = cost.setdefault(key, [0, {}]); c[0] += d; c[1][stage] = c[1].get(stage, 0) + d
    totals.append((rows[-1][0] - rows[0][0], crate, len(cost)))
    for k, (v, st) in cost.items(): every.append((v, crate, k, st))
every.sort(key=lambda e: -e[0])
for total, crate, n in sorted(totals, reverse=True): print(f'{total:7.1f} {crate} {n}')
for v, crate, k, st in every[:int(os.environ.get('TOP', '60'))]:
    print(f'{v:6.1f} {crate} {k}  ', ', '.join(f'{a} {b:.1f}' for a, b in sorted(st.items(), key=lambda x: -x[1])[:5] if b > 0.4))
