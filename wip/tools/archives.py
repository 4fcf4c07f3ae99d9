#!/usr/bin/env python3
"""archives.py RUN [CRATE..]: what the libraries of a run of `rt ci` hold, in megabytes: of these crates by library, else each library's sum over all."""
import collections, glob, json, re, sys


def held(index):
    sizes = collections.Counter()
    for line in open(index):
        if line.startswith("["):
            name, _, size = json.loads(line)[:3]
            of = re.match(r"\w+/Rattle-(\w+?)(-specs|-proofs)?\.", name)
            sizes[of[1] if of else "(index)"] += size
    return sizes


run, crates = sys.argv[1], sys.argv[2:]
for crate in crates:
    sizes = held(f"{run}/crates/{crate}/out/rlib/{crate}.rlib/toolchain/checked.json")
    print(crate, round(sum(sizes.values()) / 1e6), ", ".join(f"{name} {size / 1e6:.1f}" for name, size in sizes.most_common(14)))
if not crates:
    total, count = collections.Counter(), collections.Counter()
    for index in glob.glob(f"{run}/crates/*/out/rlib/*.rlib/toolchain/checked.json"):
        sizes = held(index)
        total.update(sizes)
        count.update(sizes.keys())
    for name, size in total.most_common(30):
        print(f"{size / 1e6:8.0f} MB in {count[name]:3d} libraries: {name}")
    print(f"{sum(total.values()) / 1e6:8.0f} MB in all")
