"""edits.py ROOT: whether all wrong bodies still fit, as `rt` applies them: in turn, each old text in its file once, and no line that isn't read."""
import glob, sys
root = sys.argv[1]; bad = 0; n = 0
for e in sorted(glob.glob(f'{root}/crates/*/must-fail/*.edit') + glob.glob(f'{root}/wrong_bodies/*/*.edit')):
    n += 1
    crate = e.split('/')[-3] if '/must-fail/' in e else e.split('/')[-2]
    f = o = None; texts = {}; name = e.replace(root + '/', '')
    for l in open(e).read().split('\n'):
        if l.startswith('file: '): f = l[6:].strip()
        elif l.startswith('old: '): o = l[5:]
        elif l.startswith('new:'):
            w = l[4:]; w = w[1:] if w.startswith(' ') else w
            try: t = texts[f] if f in texts else open(f'{root}/crates/{crate}/{f}').read()
            except Exception: print('NO FILE', name, f); bad += 1; break
            if t.count(o) != 1: print(t.count(o), name, '|', o[:100]); bad += 1
            texts[f] = t.replace(o, w)
        elif l.strip() and not l.startswith(('#', '--', '//')): print('NOT READ', name, '|', l[:100]); bad += 1
print(n, 'edits', bad, 'bad')
