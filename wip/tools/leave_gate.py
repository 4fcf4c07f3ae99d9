#!/usr/bin/env python3
"""leave_gate.py ROOT "TEXT" CRATE/NAME..: moves wrong bodies from crates/CRATE/must-fail to wrong_bodies/CRATE, with their stars in docs/RULES.md and their rows in docs/TESTED.md, where TEXT follows their names."""
import os, re, subprocess, sys
root, text, names = sys.argv[1], sys.argv[2], sys.argv[3:]
os.chdir(root)
rules, tested = open("docs/RULES.md").read(), open("docs/TESTED.md").read()
by_crate = {}
for it in names:
    crate, name = it.split("/")
    by_crate.setdefault(crate, []).append(name)
    os.makedirs(f"wrong_bodies/{crate}", exist_ok=True)
    subprocess.check_call(["git", "mv", f"crates/{crate}/must-fail/{name}.edit", f"wrong_bodies/{crate}/{name}.edit"])
    rules = rules.replace(f"`{crate}/{name}`*", f"`{crate}/{name}`").replace(f"`{crate}/{name}`", f"`{crate}/{name}`*")
for crate, gone in by_crate.items():
    count = len([it for it in os.listdir(f"wrong_bodies/{crate}") if it.endswith(".edit")])
    told = ", ".join(f"`{it}`" for it in gone) + f" {text}"
    row = re.search(rf"^\| `{crate}` \| \d+ \| (.*) \|$", tested, re.M)
    if row:
        tested = tested.replace(row[0], f"| `{crate}` | {count} | {row[1]}; {told} |")
    else:
        rows = re.findall(r"^\| `(\w+)` \| \d+ \| .* \|$", tested, re.M)
        before = max([it for it in rows if it < crate] or rows[:1])
        old = re.search(rf"^\| `{before}` \| \d+ \| .* \|$", tested, re.M)[0]
        tested = tested.replace(old, f"{old}\n| `{crate}` | {count} | {told} |")
open("docs/RULES.md", "w").write(rules)
open("docs/TESTED.md", "w").write(tested)
