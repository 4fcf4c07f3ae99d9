import sys,subprocess,collections,re
b,w,n=sys.argv[1:4]
r=subprocess.run(f'perf record -q -k CLOCK_MONOTONIC -e page-faults -c 1 -d -o /tmp/pft.data env LD_PRELOAD=/tmp/tm.so ./{b} {w} {n}',shell=True,capture_output=True,text=True)
tm=[float(x) for x in re.findall(r'tm (\S+)',r.stdout+r.stderr)]
a,e=tm[-2],tm[-1]
c=collections.Counter();regions=[]
for l in subprocess.run('perf script -i /tmp/pft.data -F time,ip,sym,addr 2>/dev/null',shell=True,capture_output=True,text=True).stdout.splitlines():
    p=l.split(':',1)
    try: t=float(p[0].split()[-1])
    except Exception: continue
    if a<=t<=e:
        q=p[1].split(None,2)
        c[q[2].split('::<')[0]]+=1
        regions.append((int(q[0],16)>>12,q[2].split('::<')[0]))
print(b,w,sum(c.values()))
for k,v in c.most_common(12): print('%5d %s'%(v,k[-90:]))
# runs of pages
regions.sort()
runs=[];last=None
for pg,s in regions:
    if last is not None and pg-last<=16: runs[-1][1]=pg; runs[-1][2]+=1; runs[-1][3][s]+=1
    else: runs.append([pg,pg,1,collections.Counter({s:1})])
    last=pg
for s,e2,k,ss in sorted(runs,key=lambda x:-x[2])[:10]: print('   region %x..%x %d'%(s,e2,k),ss.most_common(3))
