"""grow.py TURNS RUNS W,W P Q: what a hundred times the size costs, N = 1,000 and 100,000 in turn, the best of each; RUNS of the small size a turn."""
import subprocess,sys
turns,runs,ws,bins=int(sys.argv[1]),int(sys.argv[2]),sys.argv[3].split(','),sys.argv[4:]
def rate(b,w,n): return int(subprocess.run([b,w,str(n)],capture_output=True,text=True).stdout.split()[2])
best={}
for t in range(turns):
    for w in ws:
        for b in bins:
            for n,k in ((1000,runs),(100000,1)):
                r=max(rate(b,w,n) for _ in range(k))
                best[(w,b,n)]=max(best.get((w,b,n),0),r)
for w in ws: print(w,*(f"{b[-18:]}: {best[(w,b,1000)]:,} / {best[(w,b,100000)]:,} = {best[(w,b,1000)]/best[(w,b,100000)]:.2f};" for b in bins))
