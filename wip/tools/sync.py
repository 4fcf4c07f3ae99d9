#!/usr/bin/env python3
"""sync.py FROM TO: makes TO's crates the same as FROM's, without must-fail, keeping out/"""
import os,sys,filecmp,shutil
A,B=sys.argv[1:3]
skip={'out','must-fail'}
def files(r):
    s={}
    for at,ds,fs in os.walk(f'{r}/crates'):
        ds[:]=[d for d in ds if d not in skip]
        for f in fs: s[os.path.relpath(f'{at}/{f}',r)]=1
    for f in ('crates.txt','HANDLES'): s[f]=1
    return s
a,b=files(A),files(B)
n=0
for f in b:
    if f not in a: os.remove(f'{B}/{f}'); n+=1
for f in a:
    if f not in b or not filecmp.cmp(f'{A}/{f}',f'{B}/{f}',shallow=False) or os.path.islink(f'{A}/{f}')!=os.path.islink(f'{B}/{f}'):
        os.makedirs(os.path.dirname(f'{B}/{f}'),exist_ok=True)
        if os.path.lexists(f'{B}/{f}'): os.remove(f'{B}/{f}')
        shutil.copy2(f'{A}/{f}',f'{B}/{f}',follow_symlinks=False); n+=1
import glob
for d in glob.glob(f'{B}/crates/*/must-fail'): shutil.rmtree(d)
for at,ds,fs in os.walk(f'{B}/crates',topdown=False):
    if at.endswith('/out') or '/out/' in at: continue
    if not os.listdir(at): os.rmdir(at)
print(n,'files')
