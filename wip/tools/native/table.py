"""table.py OWN PLAIN [W,W..]: rows as docs/SPEED.md has them: the best of two programs in turn at 1,000 and, for some workloads, at 30,000, with the ratio of medians."""
import statistics, subprocess, sys

# how many turns each workload gets at 1,000, and at 30,000
TURNS = {'recovery': (40, 5), 'report': (25, 5), 'heartbeat_idle': (15, 0), 'addblock': (25, 5), 'addblock_complete': (25, 5), 'open_granted': (25, 0),
    'stat': (25, 5), 'acl_stat': (25, 0), 'mkdirs': (25, 5), 'create_complete': (25, 5), 'append_takeover': (25, 5), 'setfacl': (25, 0), 'packet_512': (25, 0),
    'tick_expired': (8, 0), 'rename_dir': (6, 0), 'delete_recursive': (10, 0), 'ls': (10, 0), 'open': (25, 0), 'script': (25, 0), 'step_stat': (25, 0)}
programs = sys.argv[1:3]
chosen = sys.argv[3].split(',') if len(sys.argv) > 3 else TURNS


def rates(workload, size, turns):
    found = {program: [] for program in programs}
    for turn in range(turns):
        for program in programs if turn % 2 == 0 else programs[::-1]:
            found[program].append(int(subprocess.run([program, workload, str(size)], capture_output=True, text=True).stdout.split()[2]))
    return [found[program] for program in programs]


for workload in chosen:
    few, many = TURNS[workload]
    own, plain = rates(workload, 1000, few)
    row = f'| `{workload}` | {max(own):,} | {max(plain):,} | {max(own) / max(plain):.2f} (medians {statistics.median(own) / statistics.median(plain):.2f}) |'
    if many:
        own, plain = rates(workload, 30000, many)
        row += f' {max(own):,} | {max(plain):,} | {max(own) / max(plain):.2f} |'
    print(row, flush=True)
