"""hotspots.py BIN WORKLOAD N LINES TURNS: where the timed part of a workload waits: functions by samples of the clock, and single places above 1.2 %.
A place is the instruction behind the one that waited (a load that misses the caches, a branch that was guessed wrong)."""
import sys, collections
from timed_samples import samples
b, w, n, lines, turns = sys.argv[1], sys.argv[2], sys.argv[3], float(sys.argv[4]), int(sys.argv[5])
fn = collections.Counter(); at = collections.Counter(); N = 0; kernel = 0
for _, x in samples(b, w, n, lines, turns):
    base, off = (x.rsplit('+', 1) + [''])[:2]
    base = base.split('::<')[0]
    N += 1; fn[base] += 1; at[base, off] += 1
    if not ('::' in base or base.startswith(('_int', 'malloc', 'free', 'realloc', '__mem', 'rattle', 'clock', 'main', 'calloc'))): kernel += 1
print(b, w, N, 'samples, kernel %.1f%%' % (100 * kernel / N))
for k, v in fn.most_common(14): print(f'{100*v/N:5.1f}% {k}')
print('-- places')
for (f, o), v in at.most_common(14):
    if v * 100 > 1.2 * N: print(f'{100*v/N:5.1f}% {f}+{o}')
