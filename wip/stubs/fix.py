import re, subprocess, sys
crate = sys.argv[1]
def drop(path, name):
    t = open(path).read()
    def one(m):
        line = m.group(0)
        if re.search(r'::%s;$' % name, line): return ''
        inner = re.search(r'\{(.*)\}', line, re.S)
        if inner:
            items = [x.strip() for x in inner.group(1).split(',') if x.strip()]
            if name in items:
                items.remove(name)
                if not items: return ''
                if len(items) == 1: return re.sub(r'\{.*\}', items[0].replace('\\', ''), line, flags=re.S)
                return re.sub(r'\{.*\}', '{' + ', '.join(items) + '}', line, flags=re.S)
        return line
    n = re.sub(r'(?ms)^(?:pub )?use [^;]*;$', one, t)
    if n == t: print('cannot drop', path, name)
    open(path, 'w').write(n)
for _ in range(12):
    r = subprocess.run(['python3', '/work/stub2/tool/fe.py', crate, '--only', ''], stdout=subprocess.PIPE, stderr=subprocess.STDOUT, text=True)
    errs = re.findall(r'^(\S+\.rt):\d+:\d+: error\[unknown-name\]: unresolved import: there is no `(\w+)` in', r.stdout, re.M)
    if not errs:
        print(r.stdout[-3000:]); break
    for p, n in errs: drop(p, n)
