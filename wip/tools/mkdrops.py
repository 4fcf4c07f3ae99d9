#!/usr/bin/env python3
"""mkdrops.py ROOT TYPE..: replaces derive(Drop) of these types (crate/Type) by a written impl"""
import re,sys,os,glob
root=sys.argv[1]
want=sys.argv[2:]
def body_end(t,i):
    d=0
    while True:
        c=t[i]
        if t.startswith('//',i): i=t.index('\n',i); continue
        if c in '({[': d+=1
        if c in ')}]':
            d-=1
            if d==0: return i
        i+=1
def split(s):
    out=[];d=0;cur=''
    for c in s:
        if c in '(<[{': d+=1
        if c in ')>]}': d-=1
        if c==',' and d==0: out.append(cur);cur=''
        else: cur+=c
    if cur.strip(): out.append(cur)
    return [x.strip() for x in out if x.strip()]
def strip(s):
    s=re.sub(r'//[^\n]*','',s); return re.sub(r'#\[[^\]]*\]','',s)
COPY=set('bool u8 u16 u32 u64 usize Mode Repl Moment BlockId Stamp NodeId Serial Key ObjectKind LastBlock ReportedReplica Modes Rights'.split())
def is_copy(ty):
    m=re.match(r'Option<(.*)>$',ty)
    return ty in COPY or (m and is_copy(m.group(1))) or ty.startswith('&')
for w in want:
    crate,ty=w.split('/')
    done=False
    for f in glob.glob(f'{root}/crates/{crate}/src/**/*.rt',recursive=True):
        t=open(f).read()
        m=re.search(r'#\[derive\(([^)]*)\)\]\n((?:#\[[^\n]*\n|//[^\n]*\n)*)pub (struct|enum) %s(<\'a>)?\s*([{(])'%ty,t)
        if not m or 'Drop' not in m.group(1): continue
        ds=[x.strip() for x in m.group(1).split(',') if x.strip() and x.strip()!='Drop']
        end=body_end(t,m.end()-1)
        inner=strip(t[m.end():end])
        kind=m.group(3)
        lt=m.group(4) or ''
        lines=[]
        if kind=='struct':
            if m.group(5)=='{':
                fs=[re.sub(r'^pub(\([^)]*\))?\s+','',x) for x in split(inner)]
                fs=[(x.split(':')[0].strip(),x.split(':',1)[1].strip()) for x in fs]
                pat=', '.join(n if not is_copy(ty_) else f'{n}: _' for n,ty_ in fs)
                lines.append(f'        let {ty} {{ {pat} }} = self;')
                lines+= [f'        drop({n});' for n,ty_ in fs if not is_copy(ty_)]
            else:
                fs=[re.sub(r'^pub(\([^)]*\))?\s+','',x) for x in split(inner)]
                names=[f'part{i}' if len(fs)>1 else 'part' for i in range(len(fs))]
                pat=', '.join(n if not is_copy(x) else '_' for n,x in zip(names,fs))
                lines.append(f'        let {ty}({pat}) = self;')
                lines+=[f'        drop({n});' for n,x in zip(names,fs) if not is_copy(x)]
        else:
            lines.append('        match self {')
            for v in split(inner):
                mm=re.match(r'(\w+)\s*(?:([({])(.*)[)}])?$',v,re.S)
                name,br,fields=mm.group(1),mm.group(2),mm.group(3)
                if not br: lines.append(f'            {ty}::{name} => {{}}'); continue
                if br=='(':
                    fs=split(fields); ns=['part'] if len(fs)==1 else ['first','second','third','fourth','fifth'][:len(fs)]
                    pat='('+', '.join(n if not is_copy(x) else '_' for n,x in zip(ns,fs))+')'
                    ds_=[n for n,x in zip(ns,fs) if not is_copy(x)]
                else:
                    fs=[(x.split(':')[0].strip(),x.split(':',1)[1].strip()) for x in split(fields)]
                    pat=' { '+', '.join(n if not is_copy(x) else f'{n}: _' for n,x in fs)+' }'
                    ds_=[n for n,x in fs if not is_copy(x)]
                if not ds_: lines.append(f'            {ty}::{name}{pat} => {{}}')
                elif len(ds_)==1: lines.append(f'            {ty}::{name}{pat} => drop({ds_[0]}),')
                else:
                    lines.append(f'            {ty}::{name}{pat} => {{')
                    lines+=[f'                drop({n});' for n in ds_]
                    lines.append('            }')
            lines.append('        }')
        imp=f"\n\nimpl{lt} Drop for {ty}{lt} {{\n    fn drop(self) {{\n"+'\n'.join(lines)+"\n    }\n}"
        stop=end+1
        if t[stop:stop+1]==';': stop+=1
        der=f"#[derive({', '.join(ds)})]\n" if ds else ''
        t=t[:m.start()]+der+m.group(2)+t[m.start(3)-4:stop]+imp+t[stop:]
        open(f,'w').write(t); done=True
    print(w,'ok' if done else 'NOT FOUND')
