#!/usr/bin/env python3
"""verdicts.py ROOT: what runs on this machine said of each wrong body of ROOT's wrong_bodies/: crates whose wrong bodies were all refused, and those that lack a verdict; refusals by a name alone."""
import glob,json,os,re,sys,collections
root=sys.argv[1]
said={}
for f in glob.glob('/opt/rattle-kept/edits/*'):
    try: j=json.load(open(f))
    except Exception: continue
    m=re.match(r'must-fail (\w+)/(\w+)\.edit: (.*)',j['text'],re.S)
    if m: said.setdefault((m.group(1),m.group(2)),[]).append((j['kind'],m.group(3)))
done=0
for c in sorted(os.listdir(root+'/wrong_bodies')):
    names=sorted(n[:-5] for n in os.listdir(f'{root}/wrong_bodies/{c}') if n.endswith('.edit'))
    got=[n for n in names if any(k=='refused' for k,_ in said.get((c,n),[]))]
    done+=len(got)
    byname=[n for n in got if all('only because a proof file names' in t for k,t in said[(c,n)] if k=='refused')]
    bad=[n for n in names if any(k!='refused' for k,_ in said.get((c,n),[]))]
    print(c,f'{len(got)}/{len(names)}','BY NAME: '+' '.join(byname) if byname else '','BAD: '+' '.join(bad) if bad else '')
print(done)
