"""Samples of the clock (`perf record`) within the timed part of a workload; for hotspots.py and where.py."""
import subprocess


def samples(binary, workload, n, lines, turns):
    """For each sample its address and `symbol+offset`. The timed part is the last so long, by the rate that the program prints, up to the last sample in what runs lines."""
    own = 'main::' if binary.startswith('plain') else 'run_more'
    for _ in range(turns):
        printed = subprocess.run(f'perf record -q -e cpu-clock -F 50000 -o /tmp/hs.data ./{binary} {workload} {n}', shell=True, capture_output=True, text=True).stdout
        try: took = lines / float(printed.split()[2])
        except Exception: continue
        taken = []
        for line in subprocess.run('perf script -i /tmp/hs.data -F time,ip,sym,symoff 2>/dev/null', shell=True, capture_output=True, text=True).stdout.splitlines():
            part = line.split(':', 1)
            try:
                ip, place = part[1].strip().split(' ', 1)
                taken.append((float(part[0].split()[-1]), int(ip, 16), place))
            except Exception: pass
        ends = [time for time, _, place in taken if own in place]
        if not ends: continue
        end = max(ends)
        for time, ip, place in taken:
            if end - took <= time <= end: yield ip, place
