#!/usr/bin/env python3
"""auto_try.py ROOT RUN EDIT..: tries each edit on the functions that it changes alone (try_edit.sh), found by the text before it."""
import re,subprocess,sys,os
root,run,edits=sys.argv[1],sys.argv[2],sys.argv[3:]
for e in edits:
    crate=os.path.basename(os.path.dirname(e)) if 'wrong_bodies' in e else e.split('/')[-3]
    fns=[];f=None
    for l in open(f'{root}/{e}'):
        l=l.rstrip('\n')
        if l.startswith('file: '): f=l[6:].strip()
        elif l.startswith('old: '):
            t=open(f'{root}/crates/{crate}/{f}').read(); i=t.find(l[5:])
            if i<0: fns.append('?'); continue
            head=t[:i+len(l[5:])]
            name=re.findall(r'^( *)(?:pub(?:\([a-z]+\))? )?(?:const )?fn (\w+)',head,re.M)[-1]
            mod=f[4:-3].replace('/','::')
            path=f'{crate}::{mod}::'
            if name[0]:
                im=re.findall(r'^impl(?:<[^>]*>)? (?:(\w+)(?:<[^>]*>)? for )?(\w+)',head,re.M)[-1]
                path+=im[1]+(im[0] if im[0] else '')+'::'
            if path+name[1] not in fns: fns.append(path+name[1])
    print('==',e,fns,flush=True)
    if '?' in fns: print('DOES NOT FIT'); continue
    r=subprocess.run(['nice','-n','10','bash','/work/helpers/try_edit.sh',root,run,crate,f'{root}/{e}',*fns],capture_output=True,text=True)
    print('\n'.join(x[:200] for x in (r.stdout+r.stderr).split('\n')[:4]),flush=True)
