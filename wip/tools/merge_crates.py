#!/usr/bin/env python3
"""merge_crates.py ROOT NEW TEXT OLD..: makes one crate of several that stand beside each other, so that the libraries below them are loaded once

NEW is the new crate's name, which may be that of one of them, TEXT its line in lib.rt. Modules keep their names, which have to differ. Moved are src/, specs/, proofs/, must-fail/ and
wrong_bodies/OLD; changed are the paths in all crates, edits, wrong rules and documents, and crates.txt, where NEW stands in the place of the last OLD.
Rows of tables that name OLD alone (one for each crate) are told on standard error, to be merged by hand. Behind it: `rt fmt` in NEW and in each crate
that names it, edits.py, ../tools/check-rules, and the proofs of all above."""
import glob, os, re, subprocess, sys

root, new, text, *olds = sys.argv[1:]
os.chdir(root)
git = lambda *words: subprocess.run(['git', *words], check=True)
target = f'crates/{new}'
libs = {'src': [], 'specs': [], 'proofs': []}
handed_on = []  # what a crate re-exports of others stays, of those that are merged it is there
for old in olds:
    for part in libs:
        for name in ('lib.rt', 'Lib.antt'):
            path = f'crates/{old}/{part}/{name}'
            if os.path.isfile(path):
                libs[part] += [line for line in open(path).read().split('\n') if re.match(r'(pub )?mod ', line)]
                handed_on += [line for line in open(path).read().split('\n') if line.startswith('pub use') and re.split(r'\W+', line)[2] not in olds]
                git('rm', '-q', path)
        for path in sorted(glob.glob(f'crates/{old}/{part}/*')):
            if old == new: continue  # stands there already
            os.makedirs(f'{target}/{part}', exist_ok=True)
            to = f'{target}/{part}/{os.path.basename(path)}'
            assert not os.path.exists(to), to
            git('mv', path, to)
    if old == new: continue
    for place, to in ((f'crates/{old}/must-fail', f'{target}/must-fail'), (f'wrong_bodies/{old}', f'wrong_bodies/{new}')):
        for path in sorted(glob.glob(f'{place}/*')):
            os.makedirs(to, exist_ok=True)
            assert not os.path.exists(f'{to}/{os.path.basename(path)}'), path
            git('mv', path, f'{to}/{os.path.basename(path)}')
    rest = [it for it in glob.glob(f'crates/{old}/**', recursive=True) if os.path.isfile(it) and '/out/' not in it]
    assert not rest, rest
for part, lines in libs.items():
    assert len(set(lines)) == len(lines), lines
    if not lines: continue
    if part == 'src':
        open(f'{target}/src/lib.rt', 'w').write(f'//! {text}\n#![tactic(auto)]\n\n' + '\n'.join(sorted(lines, key=lambda it: it.split()[-1])) + '\n' + ''.join(['\n', *(line + '\n' for line in handed_on)] if handed_on else []))
    else:
        open(f'{target}/{part}/Lib.antt', 'w').write('\n'.join(lines) + '\n')

any_old = '|'.join(map(re.escape, olds))
files = [it for part in ('crates', 'wrong_bodies', 'wrong_rules', 'docs', 'tools', 'wip') for it in glob.glob(f'{part}/**', recursive=True)
         if os.path.isfile(it) and '/out/' not in it and not it.endswith('merge_crates.py')] + ['README.md']
for path in files:
    try:
        was = open(path).read()
    except UnicodeDecodeError:
        continue
    now = re.sub(rf'\bRattle\.({any_old})\.', f'Rattle.{new}.', was)
    if path.startswith(f'{target}/src/') or path.startswith((f'{target}/must-fail/', f'wrong_bodies/{new}/')):
        now = re.sub(rf'(?<![\w.:])({any_old})::', 'crate::', now)
    now = re.sub(rf'(?<![\w.:])({any_old})::', f'{new}::', now)
    now = re.sub(rf'(?<![\w.])({any_old})/(?=[a-zA-Z_])', f'{new}/', now)
    if now != was:
        open(path, 'w').write(now)
    if path.startswith('docs/') or path == 'README.md':
        for number, line in enumerate(now.split('\n'), 1):
            if re.search(rf'`({any_old})`', line):
                print(f'{path}:{number}: {line[:150]}', file=sys.stderr)

lines, deps, last = open('crates.txt').read().split('\n'), [], None
for line in lines:
    name, _, below = line.partition(':')
    if name in olds:
        deps += [it for it in below.split() if it not in deps and it not in olds]
        last = name
order = [line.partition(':')[0] for line in lines]
out = []
for line in lines:
    name, colon, below = line.partition(':')
    if name in olds:
        if name == last:
            out.append(f'{new}: ' + ' '.join(sorted(deps, key=lambda it: order.index(it) if it in order else len(order))))
        continue
    if colon and not line.startswith('#'):
        words = []
        for it in below.split():
            it = new if it in olds else it
            if it not in words: words.append(it)
        line = f'{name}: ' + ' '.join(words) if words else line
    out.append(line)
open('crates.txt', 'w').write('\n'.join(out))
for old in olds:
    if old == new: continue
    subprocess.run(['rm', '-rf', f'crates/{old}'])
git('add', '-A')
