import re,glob,collections
def calls(b,w):
    names={}
    def nm(s):
        m=re.match(r'\((\d+)\)(?: (.*))?$',s)
        if m.group(2): names[m.group(1)]=m.group(2)
        return m.group(1)
    for g in sorted(glob.glob(f'/work/prof/cg.{b}.{w}')+glob.glob(f'/work/prof/cg.{b}.{w}.*')):
        for l in open(g):
            if l.startswith(('fn=','cfn=')): nm(l.split('=',1)[1].rstrip())
    c=collections.Counter(); s=collections.Counter(); fn=None; skip=False
    for l in open(f'/work/prof/cg.{b}.{w}.2'):
        l=l.rstrip()
        if l.startswith('fn='): fn=re.sub(r"'\d+$",'',names[nm(l[3:])])
        elif l.startswith('cfn='): cf=re.sub(r"'\d+$",'',names[nm(l[4:])])
        elif l.startswith('calls='): c[cf]+=int(l[6:].split()[0]); skip=True
        elif re.match(r'^[+\-*\d]',l):
            p=l.split()
            if skip: skip=False; continue
            s[fn]+=int(p[1])
    return c,s
tot=collections.defaultdict(dict)
for w in ('stat','create_complete','addblock','heartbeat_idle','recovery','report'):
    a,sa=calls('ai',w); 
    for b in ('t450','t1000'):
        t,_=calls(b,w)
        for k in a:
            if a[k]>=150 and t.get(k,0)<a[k]*0.3: tot[k].setdefault(b,{})[w]=(a[k],round(sa[k]/max(1,a[k])))
for k,v in sorted(tot.items(), key=lambda x:-sum(n for d in x[1].values() for n,_ in d.values())):
    print(('450 ' if 't450' in v else '1000'), k[:80], {w:n for w,n in (v.get('t450') or v.get('t1000')).items()})
