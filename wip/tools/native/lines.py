import sys,re,collections
from names import Names
# distinct 64-byte lines of code executed at least MIN times in a callgrind file with --dump-instr=yes, by function
f=sys.argv[1]; minc=int(sys.argv[2]); top=int(sys.argv[3])
nm=Names(); fn=None; skip=False; addr=0; pos=None
lines=collections.Counter(); byfn=collections.defaultdict(set); instr=collections.Counter()
def num(s,base):
    if s.startswith('+'): return base+int(s[1:],0)
    if s.startswith('-'): return base-int(s[1:],0)
    if s=='*': return base
    return int(s,0)
cnt=collections.Counter()
for l in open(f):
    l=l.rstrip('\n')
    if l.startswith('fn='): fn=nm(l[3:]); continue
    if l.startswith('cfn='): nm(l[4:]); continue
    if l.startswith('calls='): skip=True; continue
    if re.match(r'^(0x|[+\-*])',l):
        p=l.split()
        addr=num(p[0],addr)
        if skip: skip=False; continue
        n=int(p[2]) if len(p)>2 else 0
        cnt[addr]+=n
        if cnt[addr]>=minc:
            lines[addr>>6]+=n; byfn[fn].add(addr>>6); instr[fn]+=n
print('lines',len(lines),'KiB',len(lines)*64/1024, 'sets over 8:', end=' ')
sets=collections.Counter(a&63 for a in lines)
print(sum(1 for s,c in sets.items() if c>8), 'excess', sum(max(0,c-8) for c in sets.values()))
for fn,s in sorted(byfn.items(),key=lambda x:-len(x[1]))[:top]:
    print(len(s), instr[fn], fn[:110])
