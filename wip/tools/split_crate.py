#!/usr/bin/env python3
"""split_crate.py ROOT OLD NEW TEXT MODULES SPECS PROOFS: takes modules of OLD into a crate NEW below it

MODULES, SPECS and PROOFS are names with commas between them: modules of src/ (their folders of proofs/ go with them), files of specs/ and files of
proofs/ without their endings; TEXT is NEW's line in lib.rt. Moved with them are the must-fail edits and wrong bodies that change what is moved alone;
changed are the paths in all crates, edits and documents, and crates.txt: NEW stands before OLD, and each crate that names NEW gets it. Modules that were
private to OLD become public. Rows of tables are left. Behind it: `rt fmt` in both and in each crate that names NEW, edits.py, ../tools/check-rules."""
import glob, os, re, subprocess, sys

root, old, new, text, *lists = sys.argv[1:]
modules, specs, proofs = ([it for it in one.split(',') if it] for one in lists)
os.chdir(root)
git = lambda *words: subprocess.run(['git', *words], check=True)
def move(path, to):
    os.makedirs(os.path.dirname(to), exist_ok=True)
    git('mv', path, to)
here, there = f'crates/{old}', f'crates/{new}'
for it in modules:
    move(f'{here}/src/{it}.rt', f'{there}/src/{it}.rt')
    if os.path.isdir(f'{here}/proofs/{it}'): move(f'{here}/proofs/{it}', f'{there}/proofs/{it}')
for part, names in (('specs', specs), ('proofs', proofs)):
    for it in names: move(f'{here}/{part}/{it}.antt', f'{there}/{part}/{it}.antt')
    at = f'{here}/{part}/Lib.antt'
    if os.path.isfile(at) and names:
        lines = open(at).read().split('\n')
        gone = [line for line in lines if line.split()[-1:] and line.split()[-1] in names]
        open(at, 'w').write('\n'.join(line for line in lines if line not in gone))
        open(f'{there}/{part}/Lib.antt', 'w').write('\n'.join(gone) + '\n')
lib = open(f'{here}/src/lib.rt').read().split('\n')
gone = [line for line in lib if re.match(r'(pub )?mod \w+;', line) and line.rstrip(';').split()[-1] in modules]
open(f'{here}/src/lib.rt', 'w').write('\n'.join(line for line in lib if line not in gone))
open(f'{there}/src/lib.rt', 'w').write(f'//! {text}\n#![tactic(auto)]\n\n' + '\n'.join('pub ' * (not line.startswith('pub')) + line for line in gone) + '\n')
moved = {f'src/{it}.rt' for it in modules} | {f'specs/{it}.antt' for it in specs} | {f'proofs/{it}.antt' for it in proofs}
for place, to in ((f'{here}/must-fail', f'{there}/must-fail'), (f'wrong_bodies/{old}', f'wrong_bodies/{new}')):
    for path in sorted(glob.glob(f'{place}/*.edit')):
        files = set(re.findall(r'^file: (\S+)', open(path).read(), re.M))
        if files <= moved: move(path, f'{to}/{os.path.basename(path)}')
        elif files & moved: print('by hand:', path, file=sys.stderr)
either = '|'.join
rules = [(re.compile(rf'\b{old}::({either(modules)})\b'), rf'{new}::\1'),
         (re.compile(rf'\bRattle\.{old}\.specs\.((?:declared|contracts)\.(?:{either(modules)}))\b'), rf'Rattle.{new}.specs.\1')]
if specs: rules += [(re.compile(rf'\bRattle\.{old}\.specs\.({either(specs)})\b'), rf'Rattle.{new}.specs.\1'), (re.compile(rf'\b{old}/specs/({either(specs)})\b'), rf'{new}/specs/\1')]
rules += [(re.compile(rf'\bRattle\.{old}\.proofs\.({either(proofs + modules)})\b'), rf'Rattle.{new}.proofs.\1')]
inside = [(re.compile(rf'\bcrate::({either(modules)})\b'), rf'{new}::\1')]
names = {}
for at in ['crates', 'wrong_bodies', 'docs', 'README.md']:
    for path in ([at] if os.path.isfile(at) else glob.glob(f'{at}/**', recursive=True)):
        if not os.path.isfile(path) or '/out/' in path or not path.endswith(('.rt', '.antt', '.edit', '.md')): continue
        was = now = open(path).read()
        for one, other in rules: now = one.sub(other, now)
        if path.startswith((f'{here}/', f'wrong_bodies/{old}/')):
            for one, other in inside: now = one.sub(other, now)
        if path.startswith(f'{there}/') or path.startswith(f'wrong_bodies/{new}/'): now = now.replace(f'{new}::', 'crate::')
        if now != was: open(path, 'w').write(now)
        if path.startswith('crates/') and path.endswith(('.rt', '.antt')) and re.search(rf'\b{new}::|\bRattle\.{new}\.', now): names[path.split('/')[1]] = True
        if path.startswith('docs') or path == 'README.md':
            pass
lines = open('crates.txt').read().split('\n')
kept = []
for line in lines:
    name, colon, rest = line.partition(':')
    if not colon or line.startswith('#'): kept.append(line); continue
    words = rest.split()
    if name == old:
        kept.append(f'{new}: ' + ' '.join(words))
    if name in names and name != new and new not in words:
        at = words.index(old) if old in words else 0
        words = words[:at] + [new] + words[at:]
    kept.append(f"{name}: {' '.join(words)}".rstrip() if words else f'{name}:')
open('crates.txt', 'w').write('\n'.join(kept))
print('names', new, 'now:', ' '.join(sorted(names)), file=sys.stderr)
