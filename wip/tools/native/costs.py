"""Instructions of a callgrind file by their address; for mix.py and overl.py."""
import collections, re


def costs(file):
    cost = collections.Counter(); address = 0; behind_calls = False
    for line in open(file):
        line = line.rstrip()
        if line.startswith('calls='): behind_calls = True
        elif re.match(r'^(0x|\+|-|\*)', line):
            parts = line.split(); place = parts[0]
            if place.startswith('0x'): address = int(place, 16)
            elif place[0] in '+-': address += int(place)
            # the line behind `calls=` has what the callee cost
            if behind_calls: behind_calls = False
            else: cost[address] += int(parts[2])
    return cost
