#!/usr/bin/env python3
"""fe.py CRATE FLAGS..: rattle check of a crate of the tree, over built libraries where there are some and sources else"""
import sys, os, re, subprocess
T = '/work/stub2/tree'
R = '/opt/rattle/rlibs'
crate, flags = sys.argv[1], sys.argv[2:]
deps = {}
for l in open(f'{T}/crates.txt'):
    m = re.match(r'(\w+):\s*(.*)', l)
    if m: deps[m.group(1)] = m.group(2).split()
def closure(c, seen):
    for d in deps.get(c, []):
        if d in deps and d not in seen:
            closure(d, seen)
    if c not in seen: seen.append(c)
    return seen
order = closure(crate, [])[:-1]
built = lambda c: os.path.isfile(f'{T}/crates/{c}/out/rlib/stamp')
ok = {}
for c in order:
    ok[c] = built(c) and all(ok[d] for d in deps[c] if d in deps)
kit = set()
for c in order + [crate]:
    kit |= {d for d in deps[c] if d not in deps}
words = ['/opt/rattle/bin/rattle', 'check', '--crate-name', crate, f'{T}/crates/{crate}/src/lib.rt', '--extern', f'std={R}/std.rlib', '--extern', f'core={R}/core.rlib', '-L', f'dependency={R}']
for k in sorted(kit): words += ['--extern', f'{k}={R}/{k}.rlib']
for c in order:
    if ok[c]: words += ['--extern', f'{c}={T}/crates/{c}/out/rlib/{c}.rlib']
for c in order:
    if ok[c]: words += ['-L', f'dependency={T}/crates/{c}/out/rlib']
libs = [c for c in order if not ok[c]]
for c in libs:
    words += ['--lib', f"{c}:core,std,{','.join(deps[c])}={T}/crates/{c}/src/lib.rt"]
os.makedirs(f'/work/stub2/inc-{crate}' + os.environ.get('INC','') + '', exist_ok=True)
words += ['--antt-project', '/opt/rattle/rattle/logic/antt-project.json', '--logic-built', '/opt/rattle/logic_built', '--incremental', f'/work/stub2/inc-{crate}' + os.environ.get('INC','') + '']
print('libs as sources:', libs, file=sys.stderr)
sys.exit(subprocess.run(words + flags).returncode)
