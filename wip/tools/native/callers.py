import re,collections,glob,sys
from names import Names
f=sys.argv[1]; keys=sys.argv[2].split(','); per=float(sys.argv[3])
nm=Names()
for g in sorted(glob.glob(re.sub(r'\.\d+$','',f)+'*')):
    for l in open(g):
        if l.startswith(('fn=','cfn=')): nm(l.split('=',1)[1].rstrip())
c=collections.Counter(); fn=None
for l in open(f):
    l=l.rstrip()
    if l.startswith('fn='): fn=nm(l[3:])
    elif l.startswith('cfn='): cf=nm(l[4:])
    elif l.startswith('calls='):
        if any(k in cf for k in keys): c[cf[:60],fn[:80]]+=int(l[6:].split()[0])
for k,v in c.most_common(30): print(round(v/per,2),k)
