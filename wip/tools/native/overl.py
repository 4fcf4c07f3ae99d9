"""overl.py FILE BIN: loads and stores of two to eight bytes at places that are no multiple of their size, by the functions that run them most. FILE is a profile by
`DUMP=--dump-instr=yes prof.sh`. Such a place mostly means that a value is moved from right behind its tag on."""
import collections, re, subprocess, sys
from costs import costs

file, binary = sys.argv[1:3]
cost = costs(file)


def size_of(register):
    if re.match(r'r(ax|bx|cx|dx|si|di|bp|sp|\d+)$', register): return 8
    if re.match(r'(e..|r\d+d)$', register): return 4
    if re.match(r'(ax|bx|cx|dx|si|di|bp|r\d+w)$', register): return 2
    return 1


function = None; found = collections.Counter(); moves = collections.defaultdict(list)
for line in subprocess.run(['objdump', '-d', '--no-show-raw-insn', binary], capture_output=True, text=True).stdout.split('\n'):
    head = re.match(r'^[0-9a-f]+ <(.*)>:', line)
    if head: function = head.group(1).split('::<')[0]; continue
    instruction = re.match(r'\s*([0-9a-f]+):\s*(.*)', line)
    count = cost.get(int(instruction.group(1), 16)) if instruction else None
    if not count: continue
    text = instruction.group(2)
    load = re.match(r'mov\s+(-?0x[0-9a-f]+)?\(%r\w+\),%(\w+)$', text)
    store = re.match(r'mov\s+%(\w+),(-?0x[0-9a-f]+)?\(%r\w+\)$', text)
    if load: place, register = load.group(1), load.group(2)
    elif store: place, register = store.group(2), store.group(1)
    else: continue
    if int(place or '0', 16) % size_of(register): found[function] += count; moves[function].append((count, text))
for function, count in found.most_common(12):
    print(count, function)
    for each, text in sorted(moves[function], reverse=True)[:8]: print('      ', each, text)
