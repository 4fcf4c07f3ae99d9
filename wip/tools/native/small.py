import re,glob,collections
calls=collections.Counter(); selfc=collections.Counter(); byw=collections.defaultdict(dict)
for f in glob.glob('/work/prof/cg.now.*.2'):
    w=f.split('.')[2]; names={}
    def nm(s):
        m=re.match(r'\((\d+)\)(?: (.*))?$',s)
        if m.group(2): names[m.group(1)]=m.group(2)
        return m.group(1)
    for g in sorted(glob.glob(f'/work/prof/cg.now.{w}*')):
        for l in open(g):
            if l.startswith(('fn=','cfn=')): nm(l.split('=',1)[1].rstrip())
    fn=None; skip=False; tot=0
    s=collections.Counter(); c=collections.Counter()
    for l in open(f):
        l=l.rstrip()
        if l.startswith('fn='): fn=names[nm(l[3:])]
        elif l.startswith('cfn='): cf=names[nm(l[4:])]
        elif l.startswith('calls='): c[cf]+=int(l[6:].split()[0]); skip=True
        elif re.match(r'^[+\-*\d]',l):
            p=l.split()
            if skip: skip=False; continue
            s[fn]+=int(p[1]); tot+=int(p[1])
    for k in c:
        if c[k] and s[k]/c[k]<80 and s[k]/tot>0.004: byw[re.sub(r"'\d+$",'',k)][w]=(c[k],round(s[k]/c[k]),round(100*s[k]/tot,1))
for k,v in sorted(byw.items(),key=lambda x:-sum(y[2] for y in x[1].values()))[:60]:
    print(k[:90], ' '.join(f'{w}:{a[1]}i/{a[2]}%' for w,a in v.items()))
