"""med.py N TURNS W,W.. BIN..: the best and the median of each program on each workload, the programs in turn (cmp.sh has the best alone)."""
import statistics, subprocess, sys

size, turns, workloads, binaries = sys.argv[1], int(sys.argv[2]), sys.argv[3].split(','), sys.argv[4:]
for workload in workloads:
    rates = {binary: [] for binary in binaries}
    for turn in range(turns):
        for binary in binaries if turn % 2 == 0 else binaries[::-1]:
            path = binary if '/' in binary else '/work/prof/' + binary
            rates[binary].append(int(subprocess.run([path, workload, size], capture_output=True, text=True).stdout.split()[2]))
    for binary in binaries:
        print(f'{workload:18} {binary[-20:]:20} best {max(rates[binary]):>10,} median {int(statistics.median(rates[binary])):>10,}')
