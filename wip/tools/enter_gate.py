#!/usr/bin/env python3
"""enter_gate.py ROOT CRATE/NAME..: the inverse of leave_gate.py: puts wrong bodies back into crates/CRATE/must-fail, with their rows in docs/RULES.md and docs/TESTED.md."""
import os, re, subprocess, sys
root, names = sys.argv[1], sys.argv[2:]
os.chdir(root)
rules, tested = open("docs/RULES.md").read(), open("docs/TESTED.md").read()
for it in names:
    crate, name = it.split("/")
    subprocess.check_call(["git", "mv", f"wrong_bodies/{crate}/{name}.edit", f"crates/{crate}/must-fail/{name}.edit"])
    rules = rules.replace(f"`{crate}/{name}`*", f"`{crate}/{name}`")
    row = re.search(rf"^\| `{crate}` \| (\d+) \| (.*) \|\n", tested, re.M)
    count = int(row[1]) - 1
    parts = row[2].split("; ")
    last = parts[-1]
    told = [it for it in re.findall(r"`(\w+)`", last) if it != name]
    assert f"`{name}`" in last, it
    end = last[last.rindex("`") + 1 :]
    parts = parts[:-1] + ([", ".join(f"`{it}`" for it in told) + end] if told else [])
    tested = tested.replace(row[0], f"| `{crate}` | {count} | {'; '.join(parts)} |\n" if count else "")
open("docs/RULES.md", "w").write(rules)
open("docs/TESTED.md", "w").write(tested)
