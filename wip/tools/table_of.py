"""table_of.py MEASURED: the tables of docs/SPEED.md from what measure.sh printed."""
import re,sys
sec=None; data={}; tool={}; tick={}
for l in open(sys.argv[1]):
    l=l.rstrip('\n')
    m=re.match(r'== (\S+) ?(.*)',l)
    if m: sec=m[1]+(' '+m[2] if m[1]=='tick' else ''); continue
    if sec=='1000':
        w=l.split()
        if len(w)>=3 and w[1].isdigit(): tool[w[0]]=(int(w[2]),int(w[3]) if len(w)>3 else None)
    elif sec in ('30000','100000','1000000') or (sec or '').startswith('tick'):
        m=re.match(r'(\w+)\s+(\S+)\s+best\s+([\d,]+) median\s+([\d,]+)',l)
        if m:
            who='plain' if 'plain' in m[2] else 'proved'
            d=(tick if sec.startswith('tick') else data.setdefault(sec,{})).setdefault(m[1],{})
            d[who]=(int(m[3].replace(',','')),int(m[4].replace(',','')))
names="mkdirs stat acl_stat setfacl ls rename_dir delete_recursive delete_each create_complete append_takeover tick_idle tick_expired addblock addblock_complete open open_granted report heartbeat_idle step_stat script packet_64k packet_512 packet_passed_on read_64k pipeline recovery check_token_uncached".split()
def cell(size,n):
    if size=='1000':
        if n not in tool: return ['','','']
        a,b=tool[n]; return [f'{a:,}',f'{b:,}' if b else '',f'{a/b:.2f}' if b else '']
    d=data.get(size,{}).get(n,{})
    if 'proved' not in d or 'plain' not in d: return ['','','']
    a,b=d['proved'],d['plain']
    return [f'{a[0]:,}',f'{b[0]:,}',f'{a[0]/b[0]:.2f} ({a[1]/b[1]:.2f})']
print('| Workload | 1,000 | plain | ratio | 30,000 | plain | ratio | 1,000,000 | plain | ratio |')
print('|---|---|---|---|---|---|---|---|---|---|')
for n in names: print('| `'+n+'` | '+' | '.join(cell('1000',n)+cell('30000',n)+cell('1000000',n))+' |')
print()
print('growth 1000->100000, 10000? proved plain; 100000 ratio; 1000->1000000')
for n in names:
    d=data.get('100000',{}).get(n)
    if not d or n not in tool or 'plain' not in d: continue
    e=data.get('1000000',{}).get(n,{})
    x=f"{tool[n][0]/e['proved'][0]:.2f} {tool[n][1]/e['plain'][0]:.2f}" if 'plain' in e else ''
    f=data.get('30000',{}).get(n,{})
    y=f"30k->1M {f['proved'][0]/e['proved'][0]:.2f}" if 'proved' in f and 'proved' in e else ''
    print(f"{n:18} {tool[n][0]/d['proved'][0]:.2f} plain {tool[n][1]/d['plain'][0]:.2f}  ratio {d['proved'][0]/d['plain'][0]:.2f} ({d['proved'][1]/d['plain'][1]:.2f}) {d['proved'][0]:,} | 1M {x} {y}")
print('tick section:')
for n,d in tick.items(): print(n, f"{d['proved'][0]/d['plain'][0]:.2f} ({d['proved'][1]/d['plain'][1]:.2f})", d)
low=[(s,n,round(v['proved'][0]/v['plain'][0],2)) for s,dd in data.items() for n,v in dd.items() if 'plain' in v and v['proved'][0]/v['plain'][0]<0.65]
low+=[('1000',n,round(a/b,2)) for n,(a,b) in tool.items() if b and a/b<0.65]
print('below 0.65:',low)
