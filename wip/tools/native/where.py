"""where.py BIN WORKLOAD N LINES TURNS FUNCTION..: samples of the clock within functions, by instruction, with the disassembly around the greatest."""
import subprocess, sys, collections
from timed_samples import samples
b, w, n, lines, turns = sys.argv[1], sys.argv[2], sys.argv[3], float(sys.argv[4]), int(sys.argv[5]); fns = sys.argv[6:]
at = {f: collections.Counter() for f in fns}; N = 0
for ip, x in samples(b, w, n, lines, turns):
    N += 1
    for f in fns:
        name, _, off = x.partition('+0x')
        if name.startswith(f): at[f][int(off.split()[0], 16)] += 1
syms = {}
for l in subprocess.run(['nm', '-C', b], capture_output=True, text=True).stdout.splitlines():
    p = l.split(' ', 2)
    if len(p) == 3 and p[0]: syms[p[2]] = int(p[0], 16)
for f in fns:
    print(f, '%.1f%%' % (100 * sum(at[f].values()) / N))
    base = syms.get(f)
    for o, c in at[f].most_common(14):
        if 100 * c / N < 0.12: break
        print('  %.2f%% +%#x' % (100 * c / N, o))
        if base:
            out = subprocess.run(['objdump', '-d', '--no-show-raw-insn', f'--start-address={base+o-24}', f'--stop-address={base+o+6}', b], capture_output=True, text=True).stdout.splitlines()
            for l in [l for l in out if '\t' in l][-5:]: print('        ', l.strip()[:110])
