#!/usr/bin/env python3
"""fe.py ROOT CRATE FLAGS..: rattle check over sources"""
import sys, os, re, subprocess
T, crate, flags = sys.argv[1], sys.argv[2], sys.argv[3:]
R = '/opt/rattle/rlibs'
deps = {}
for l in open(f'{T}/crates.txt'):
    m = re.match(r'(\w+)[^:]*:\s*(.*)', l)
    if m and not l.startswith('#'): deps[m.group(1)] = m.group(2).split()
def closure(c, seen):
    for d in deps.get(c, []):
        if d in deps and d not in seen: closure(d, seen)
    if c not in seen: seen.append(c)
    return seen
order = closure(crate, [])[:-1]
kit = set()
for c in order + [crate]: kit |= {d for d in deps[c] if d not in deps}
root = 'main.rt' if os.path.exists(f'{T}/crates/{crate}/src/main.rt') else 'lib.rt'
words = ['/opt/rattle/bin/rattle', 'check', '--crate-name', crate, f'{T}/crates/{crate}/src/{root}', '--extern', f'std={R}/std.rlib', '--extern', f'core={R}/core.rlib', '-L', f'dependency={R}']
for k in sorted(kit): words += ['--extern', f'{k}={R}/{k}.rlib']
for c in order: words += ['--lib', f"{c}:core,std,{','.join(deps[c])}={T}/crates/{c}/src/lib.rt"]
words += ['--antt-project', '/opt/rattle/rattle/logic/antt-project.json', '--logic-built', '/opt/rattle/logic_built']
sys.exit(subprocess.run(words + flags).returncode)
