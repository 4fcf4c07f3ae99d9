#!/usr/bin/env python3
"""deps.py ROOT [fix]: libraries that a crate's files name and its line of crates.txt lacks; with fix they are added."""
import os, re, sys
root = sys.argv[1]
text = open(f'{root}/crates.txt').read()
deps = {}
for l in text.splitlines():
    m = re.match(r'(\w+)([^:#]*):\s*(.*)', l)
    if m and not l.startswith('#'): deps[m.group(1)] = m.group(3).split()
order = list(deps)
for c in order:
    named = set()
    for at, ds, fs in os.walk(f'{root}/crates/{c}'):
        ds[:] = [d for d in ds if d not in ('out', 'must-fail', 'data')]
        for f in fs:
            if f.endswith(('.rt', '.antt')):
                t = open(f'{at}/{f}').read()
                named |= set(re.findall(r'\bRattle\.(\w+)\.', t)) | set(re.findall(r'^use (\w+)::', t, re.M))
    lack = [x for x in order if x in named and x != c and x not in deps[c]]
    if lack:
        print(c, 'lacks', ' '.join(lack))
        if len(sys.argv) > 2:
            text = re.sub(r'^(%s[^:\n]*:)(.*)$' % c, lambda m: f"{m.group(1)}{m.group(2)} {' '.join(lack)}", text, count=1, flags=re.M)
if len(sys.argv) > 2: open(f'{root}/crates.txt', 'w').write(text)
