"""tested_rows.py ROOT: writes the numbers of the table of wrong bodies in docs/TESTED.md anew, and adds rows that it lacks."""
import glob, os, re, sys
os.chdir(sys.argv[1])
text = open("docs/TESTED.md").read()
head = "| Crate | Number | On functions | The others were last all refused |\n|---|---|---|---|\n"
at = text.index(head) + len(head)
end = text.index("\n\n", at) if "\n\n" in text[at:] else len(text.rstrip("\n"))
rows = {}
for line in text[at:end].split("\n"):
    cells = line.split(" | ")
    rows[cells[0].strip("| `")] = cells[3].removesuffix(" |")
out = []
for folder in sorted(glob.glob("wrong_bodies/*/")):
    crate = os.path.basename(folder[:-1])
    edits = glob.glob(folder + "*.edit")
    on = sum(open(it).read().startswith("only: ") for it in edits)
    others = rows.get(crate, "—") if on < len(edits) else "—"
    out.append(f"| `{crate}` | {len(edits)} | {on or '—'} | {others} |")
open("docs/TESTED.md", "w").write(text[:at] + "\n".join(out) + text[end:])
print(len(out), "rows", set(rows) - {it.split("`")[1] for it in out})
