#!/usr/bin/env python3
"""to_functions.py ROOT CRATE[/NAME]..: has tools/try-on-functions try wrong bodies of the gate in place of `rt ci` (all of a crate, or one, also one of
wrong_bodies already): moves them to wrong_bodies/CRATE, with a line `only: FUNCTION` for each function that they change, and with their marks in docs/RULES.md.
Prints those that change no function, whose lines are to be written by hand."""
import glob, os, re, subprocess, sys
root, names = sys.argv[1], sys.argv[2:]
os.chdir(root)
rules = open("docs/RULES.md").read()


def function_at(path, module, at, text):
    head = text[:at]
    names = re.findall(r"^( *)(?:pub(?:\([a-z]+\))? )?(?:const )?fn (\w+)", head, re.M)
    if not names or path[:4] != "src/":
        return None
    # an item that begins behind the last function, and isn't one
    behind = head[head.rindex(f"fn {names[-1][1]}") :]
    if re.search(r"^}\n", behind, re.M) and not names[-1][0]:
        return None
    name = f"{module}::"
    if names[-1][0]:
        trait, of = re.findall(r"^impl(?:<[^>]*>)? (?:(?:\w+::)*(\w+)(?:<[^>]*>)? for )?(\w+)", head, re.M)[-1]
        name += f"{of}{trait}::"
    return name + names[-1][1]


for it in names:
    crate, _, one = it.partition("/")
    for edit in [f"wrong_bodies/{it}.edit" if os.path.exists(f"wrong_bodies/{it}.edit") else f"crates/{crate}/must-fail/{one}.edit"] if one else sorted(glob.glob(f"crates/{crate}/must-fail/*.edit")):
        found, path = [], None
        for line in open(edit).read().split("\n"):
            if line.startswith("file: "):
                path = line[6:].strip()
            elif line.startswith("old: "):
                text = open(f"crates/{crate}/{path}").read()
                end = text.index(line[5:]) + len(line[5:])
                function = function_at(path, path[4:-3].replace("/", "::"), end, text)
                found += [function] if function not in found else []
        name = os.path.basename(edit)[:-5]
        to = f"wrong_bodies/{crate}/{name}.edit"
        if edit != to:
            os.makedirs(f"wrong_bodies/{crate}", exist_ok=True)
            subprocess.check_call(["git", "mv", edit, to])
        text = open(to).read()
        if None in found:
            print("by hand:", to, found)
        open(to, "w").write("".join(f"only: {it}\n" for it in found if it) + text)
        rules = rules.replace(f"`{crate}/{name}`*", f"`{crate}/{name}`").replace(f"`{crate}/{name}`", f"`{crate}/{name}`+")
open("docs/RULES.md", "w").write(rules)
