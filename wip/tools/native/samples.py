import subprocess,sys,collections
b,w,n,lines=sys.argv[1],sys.argv[2],sys.argv[3],float(sys.argv[4])
tot=collections.Counter(); N=0
for rep in range(int(sys.argv[5]) if len(sys.argv)>5 else 5):
    r=subprocess.run(f'perf record -q -e cpu-clock -F 25000 -o /tmp/pc.data ./{b} {w} {n}',shell=True,capture_output=True,text=True).stdout
    rate=float(r.split()[2]); d=lines/rate
    s=[]
    for l in subprocess.run('perf script -i /tmp/pc.data -F time,ip,sym',shell=True,capture_output=True,text=True).stdout.splitlines():
        p=l.split(':',1)
        try: s.append((float(p[0].split()[-1]),p[1].strip()))
        except Exception: pass
    # end: last sample of run_more-like
    key='run_more'
    te=max(t for t,x in s if key in x or 'cluster_' in x)
    for t,x in s:
        if te-d<=t<=te: tot[x.split(' ',1)[1].split('::<')[0]]+=1; N+=1
    print(rate, d, len(s))
for k,v in tot.most_common(40): print(f'{100*v/N:5.1f}% {k}')
