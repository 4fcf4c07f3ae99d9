#!/usr/bin/env python3
"""from_functions.py ROOT CRATE..: the inverse of to_functions.py for all wrong bodies of a crate that name functions: puts them back into
crates/CRATE/must-fail, without these lines, with their marks in docs/RULES.md."""
import glob, os, subprocess, sys
root, crates = sys.argv[1], sys.argv[2:]
os.chdir(root)
rules = open("docs/RULES.md").read()
for crate in crates:
    for edit in sorted(glob.glob(f"wrong_bodies/{crate}/*.edit")):
        lines = open(edit).readlines()
        if not any(line.startswith("only: ") for line in lines):
            continue
        name = os.path.basename(edit)[:-5]
        to = f"crates/{crate}/must-fail/{name}.edit"
        os.makedirs(os.path.dirname(to), exist_ok=True)
        subprocess.check_call(["git", "mv", edit, to])
        open(to, "w").writelines(line for line in lines if not line.startswith("only: "))
        rules = rules.replace(f"`{crate}/{name}`+", f"`{crate}/{name}`")
open("docs/RULES.md", "w").write(rules)
