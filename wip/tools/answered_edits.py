#!/usr/bin/env python3
"""answered_edits.py ROOT [CRATE..]: for each answer by search alone, the wrong bodies of its function and the goals it answers"""
import sys,os,re,glob
root=sys.argv[1]; only=sys.argv[2:]
def fn_of(text,pos):
    best=None
    for m in re.finditer(r'^\s*(?:pub(?:\([^)]*\))?\s+)?fn\s+(\w+)',text,re.M):
        if m.start()<=pos+len('fn '): best=m.group(1)
    return best
for c in sorted(os.listdir(f'{root}/crates')):
    if only and c not in only: continue
    eds={}
    for e in sorted(glob.glob(f'{root}/crates/{c}/must-fail/*.edit')):
        t=open(e).read()
        parts=re.split(r'^file: ',t,flags=re.M)[1:]
        for p in parts:
            f,rest=p.split('\n',1)
            m=re.match(r'old: ?(.*?)\nnew: ?(.*)\Z',rest,re.S)
            if not m: continue
            old,new=m.group(1),m.group(2).rstrip('\n')
            src=open(f'{root}/crates/{c}/{f.strip()}').read()
            i=src.find(old.strip())
            if i < 0: i=src.find(old.split('\n')[0].strip())
            eds.setdefault((os.path.basename(f.strip())[:-3],fn_of(src,i+len(old) if 'fn ' in old else i)),[]).append((os.path.basename(e),old.strip(),new.strip()))
    for a in sorted(glob.glob(f'{root}/crates/{c}/proofs/**/Answers.antt',recursive=True)):
        s=open(a).read()
        goals=re.findall(r'^(\S+) c = search rules',s,re.M)
        if not goals: continue
        parts=a.split('/proofs/')[1].split('/')
        key=(parts[0],parts[-2])
        es=eds.get(key,[])
        flag = '' if len(es)<=1 else ' **'
        print(f'{c}: {"/".join(parts[:-1])}: {" ".join(goals)}{flag}')
        if len(es)>1:
            for n,o,w in es: print('      ',n,'|',o,'=>',w)
        if not es: print('       none found')
