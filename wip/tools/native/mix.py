import re,sys,collections,subprocess
from costs import costs
f,binp,per=sys.argv[1],sys.argv[2],int(sys.argv[3])
cost=costs(f)
dis=subprocess.run(['objdump','-d','--no-show-raw-insn',binp],capture_output=True,text=True).stdout
kinds=collections.Counter()
for l in dis.split('\n'):
    m=re.match(r'\s*([0-9a-f]+):\s*(.*)',l)
    if m:
        c=cost.get(int(m.group(1),16))
        if not c: continue
        t=m.group(2)
        if re.match(r'mov[aud]\w*\s+%xmm\d+,.*\(%(rsp|rbp)',t): k='xmm->stack'
        elif re.match(r'mov[aud]\w*\s+.*\(%(rsp|rbp).*,%xmm',t): k='stack->xmm'
        elif re.match(r'mov[aud]\w*\s+%xmm',t): k='xmm->mem'
        elif re.match(r'mov[aud]\w*\s+.*,%xmm',t): k='mem->xmm'
        elif re.match(r'mov[lqwb]\s+\$0x0,.*\(%(rsp|rbp)',t): k='zero->stack'
        elif re.match(r'(mov|movz|movs)\w*\s+.*\(%rsp',t): k='gpr stack'
        elif t.startswith('push') or t.startswith('pop'): k='push/pop'
        elif t.startswith('test   $0x'): k='align test'
        else: k='other'
        kinds[k]+=c
tot=sum(kinds.values())
print('total per', tot/per)
for k,v in kinds.most_common(): print(f'{k:12s} {v/per:8.1f} {100*v/tot:5.1f}%')
