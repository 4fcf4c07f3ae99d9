#!/usr/bin/env python3
"""paths.py CRATES_TXT: how many paths lead down in it, which `rt` walks anew for each file of a crate before it begins, and the lines that lead
to most of them and of which a crate's files name the library three times or less."""
import os, re, sys
from functools import lru_cache
deps = {}
for line in open(sys.argv[1]):
    found = re.match(r'^([a-z_0-9]+)(?: [^:]*)?:(.*)$', line.rstrip('\n'))
    if found: deps[found.group(1)] = found.group(2).split()
deps = {crate: [it for it in below if it in deps] for crate, below in deps.items()}
@lru_cache(None)
def below(crate): return 1 + sum(below(it) for it in deps[crate])
above = {crate: 1 for crate in deps}
for crate in list(deps)[::-1]:
    for it in deps[crate]: above[it] += above[crate]
def named(crate, library):
    count = 0
    for root, _, files in os.walk(os.path.join(os.path.dirname(sys.argv[1]), 'crates', crate)):
        if '/out' in root: continue
        for name in files:
            if name.endswith(('.rt', '.antt')): count += len(re.findall(r'\b' + library + r'(?:::|\.)', open(os.path.join(root, name)).read()))
    return count
print('paths', sum(below(crate) for crate in deps))
for crate in sorted(deps, key=below, reverse=True)[:8]: print(' ', crate, below(crate))
rows = sorted(((above[crate] * below(it), crate, it) for crate in deps for it in deps[crate]), reverse=True)
for cost, crate, it in rows[:120]:
    count = named(crate, it)
    if count <= 3: print(cost, crate, it, 'named', count, 'times')
